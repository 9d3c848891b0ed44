package main

import (
	"encoding/json"
	"fmt"
	"math/rand"
	"net/http"
	"strings"
	"testing"

	"review-front/profile"
)

// oneRule is a policy that permits, if an attribute of the subject holds what is said of it, and makes it the root.
func oneRule(condition string) []string {
	return []string{
		`{"do":"policy.add","document":{"Policy":{"PolicyId":"p","Version":"1",` +
			`"RuleCombiningAlgId":"urn:oasis:names:tc:xacml:3.0:rule-combining-algorithm:deny-unless-permit",` +
			`"Rule":[{"RuleId":"r","Effect":"Permit","Condition":` + condition + `}]}}}`,
		`{"do":"root.set","reference":{"PolicyIdReference":{"Id":"p"}}}`,
	}
}

// isGiven is the condition that an attribute of a category has a value.
func isGiven(category, attribute, kind, written string) string {
	return `{"Apply":{"FunctionId":"urn:oasis:names:tc:xacml:1.0:function:` + kind + `-is-in","Arguments":[` +
		`{"AttributeValue":{"DataType":"` + kind + `","Value":` + written + `}},` +
		`{"AttributeDesignator":{"Category":"` + category + `","AttributeId":"` + attribute + `","DataType":"` + kind + `"}}]}}`
}

const (
	subjectCategory = "urn:oasis:names:tc:xacml:1.0:subject-category:access-subject"
	actionCategory  = "urn:oasis:names:tc:xacml:3.0:attribute-category:action"
	environment     = "urn:oasis:names:tc:xacml:3.0:attribute-category:environment"
)

// verdicts lists the decisions of a response.
func verdicts(t testing.TB, response string) string {
	t.Helper()
	var read struct{ Response []struct{ Decision string } }
	if err := json.Unmarshal([]byte(response), &read); err != nil {
		t.Fatalf("%s: %v", response, err)
	}
	var words []string
	for _, one := range read.Response {
		words = append(words, one.Decision)
	}
	return strings.Join(words, " ")
}

// subject is a request whose subject has one attribute.
func subject(attribute string) string {
	return `{"Request":{"AccessSubject":{"Attribute":` + attribute + `}}}`
}

// TestTranslated asks requests of each shape that the front translates: several in one, and values in another form.
func TestTranslated(t *testing.T) {
	f := begin(t, t.TempDir())
	f.accept(oneRule(`{"Apply":{"FunctionId":"urn:oasis:names:tc:xacml:1.0:function:or","Arguments":[` +
		isGiven(subjectCategory, "name", "string", `"ann"`) + `,` +
		isGiven(environment, "now", "dateTime", `"2026-03-01T11:00:00"`) + `,` +
		isGiven(environment, "hour", "time", `"11:00:00"`) + `]}}`)...)
	now := func(written string) string {
		return `{"Request":{"Environment":{"Attribute":{"AttributeId":"now","DataType":"dateTime","Value":"` + written + `"}}}}`
	}
	hour := func(written string) string {
		return `{"Request":{"Environment":{"Attribute":{"AttributeId":"hour","DataType":"time","Value":"` + written + `"}}}}`
	}
	ann, ben := `{"Attribute":{"AttributeId":"name","Value":"ann"}}`, `{"Attribute":{"AttributeId":"name","Value":"ben"}}`
	named := func(id, category string) string { return `{"Id":"` + id + `",` + category[1:] }
	for _, one := range []struct{ request, want string }{
		{now("2026-03-01T11:00:00"), "Permit"},
		{now("2026-03-01T12:00:00+01:00"), "Permit"},
		{now("2026-02-28T23:00:00.000-12:00"), "Permit"},
		{now("2026-03-01T11:00:00+01:00"), "Deny"},
		{now("2026-03-01T11:00:00.0Z"), "Permit"},
		{hour("11:00:00.00"), "Permit"},
		{hour("11:00:00Z"), "Permit"},
		{`{"Request":{"AccessSubject":[` + ann + `,` + ben + `,` + ann + `]}}`, "Permit Deny Permit"},
		{`{"Request":{"AccessSubject":` + ben + `,"Category":{"CategoryId":"` + subjectCategory + `",` + ann[1:] + `}}`, "Deny Permit"},
		{`{"Request":{"AccessSubject":[` + ann + `,` + ben + `],"Action":[{},{}]}}`, "Permit Permit Deny Deny"},
		{`{"Request":{"AccessSubject":[` + named("a", ann) + `,` + named("b", ben) + `],"Action":` + named("c", `{"Attribute":[]}`) +
			`,"MultiRequests":{"RequestReference":[{"ReferenceId":["b","c"]},{"ReferenceId":"a"},{"ReferenceId":["a","b"]}]}}}`,
			"Deny Permit Permit Deny"},
		{subject(`[{"AttributeId":"age","Value":17.5},{"AttributeId":"name","Value":"ann"}]`), "Permit"},
		{subject(`[{"AttributeId":"mail","DataType":"rfc822Name","Value":"a@b"},{"AttributeId":"name","Value":"ann"}]`), "Permit"},
		{subject(`{"AttributeId":"x","DataType":"urn:of-our-own","Value":{"any":["thing"]}}`), "Deny"},
		{subject(`{"AttributeId":"term","DataType":"urn:oasis:names:tc:xacml:2.0:data-type:yearMonthDuration","Value":"P1Y"}`), "Deny"},
	} {
		status, body := f.post("/authorize", one.request)
		if status != http.StatusOK || verdicts(t, body) != one.want {
			t.Errorf("%s is answered %d %s, and not %s", one.request, status, body, one.want)
		}
	}
}

// TestPlaces asks requests that can't be asked: each is told with its place.
func TestPlaces(t *testing.T) {
	f := begin(t, t.TempDir())
	many := strings.Repeat(`{},`, 32) + `{}`
	long := `{"Attribute":{"AttributeId":"a","Value":"` + strings.Repeat("x", 100_000) + `"}}`
	for _, one := range []struct {
		request string
		status  int
		place   string
		what    string
	}{
		{`{"Request":{"CombinedDecision":true}}`, 400, "/Request/CombinedDecision", "CombinedDecision isn't here"},
		{`{"Request":{"ReturnPolicyIdList":true}}`, 400, "/Request/ReturnPolicyIdList", "ReturnPolicyIdList isn't here"},
		{`{"Request":{"a/b~":1}}`, 400, "/Request/a~1b~0", "isn't known"},
		{`{"Requests":{}}`, 400, "/Requests", "isn't known"},
		{`{}`, 400, "", "Request is missing"},
		{`{"Request":[]}`, 400, "/Request", "isn't an object"},
		{`{"Request":{"Category":[{}]}}`, 400, "/Request/Category/0", "CategoryId is missing"},
		{`{"Request":{"Resource":{"Content":"<x/>"}}}`, 400, "/Request/Resource/Content", "Content isn't here"},
		{subject(`{"Value":1}`), 400, "/Request/AccessSubject/Attribute", "AttributeId is missing"},
		{subject(`[{"AttributeId":"a","Value":1},{"AttributeId":"a"}]`), 400, "/Request/AccessSubject/Attribute/1", "Value is missing"},
		{subject(`{"AttributeId":"","Value":1}`), 400, "/Request/AccessSubject/Attribute/AttributeId", "1 to 256"},
		{subject(`{"AttributeId":"a","Value":["x",1]}`), 400, "/Request/AccessSubject/Attribute/Value", "all of one kind"},
		{subject(`{"AttributeId":"a","DataType":"strng","Value":"x"}`), 400, "/Request/AccessSubject/Attribute/DataType", "no data type"},
		{subject(`{"AttributeId":"a","DataType":"double","Value":1,"IncludeInResult":true}`), 400,
			"/Request/AccessSubject/Attribute/DataType", "#double isn't here"},
		{subject(`{"AttributeId":"a","Value":[1,1.5],"IncludeInResult":true}`), 400, "/Request/AccessSubject/Attribute/Value", "#double"},
		{subject(`{"AttributeId":"a","DataType":"date","Value":["2026-03-01","2026-03-01+01:00"]}`), 400,
			"/Request/AccessSubject/Attribute/Value/1", "an offset of a date"},
		{subject(`{"AttributeId":"a","DataType":"time","Value":"11:00:00+01:00"}`), 400,
			"/Request/AccessSubject/Attribute/Value", "an offset of a time"},
		{subject(`{"AttributeId":"a","DataType":"time","Value":"11:00:00.5"}`), 400, "/Request/AccessSubject/Attribute/Value", "fraction"},
		{subject(`{"AttributeId":"a","DataType":"dateTime","Value":"2026-03-01T11:00:00.001+01:00"}`), 400,
			"/Request/AccessSubject/Attribute/Value", "fraction"},
		{subject(`{"AttributeId":"a","DataType":"dateTime","Value":"0001-01-01T00:00:00+01:00"}`), 400,
			"/Request/AccessSubject/Attribute/Value", "years 1 to 9999"},
		{subject(`{"AttributeId":"a","DataType":"integer","Value":"1.5"}`), 400, "/Request/AccessSubject/Attribute/Value", "whole"},
		{`{"Request":{"MultiRequests":{}}}`, 400, "/Request/MultiRequests", "no RequestReference"},
		{`{"Request":{"MultiRequests":{"RequestReference":[{"ReferenceId":["a"]}]}}}`, 400,
			"/Request/MultiRequests/RequestReference/0", `no category has the id "a"`},
		{`{"Request":{"AccessSubject":[{"Id":"a"},{"Id":"a"}],"MultiRequests":{"RequestReference":{"ReferenceId":"a"}}}}`, 400,
			"/Request/AccessSubject/1", "another category has its id"},
		{`{"Request":{"AccessSubject":[` + many + `],"Action":[` + many + `]}}`, 422, "", "more than 1000"},
		{`{"Request":{"AccessSubject":[` + strings.Repeat(`{},`, 200) + `{}],"Action":` + long + `}}`, 422, "", "bytes of them"},
	} {
		status, body := f.post("/authorize", one.request)
		var told struct {
			Place, Detail string
			Refused       int
		}
		if err := json.Unmarshal([]byte(body), &told); err != nil {
			t.Fatal(err)
		}
		if status != one.status || told.Place != one.place || !strings.Contains(told.Detail, one.what) ||
			(told.Refused == 14) != (status == 400) {
			t.Errorf("%.300s is answered %d %s, and not %s: %s", one.request, status, body, one.place, one.what)
		}
	}
}

// anyRequest is a request that has many of the shapes that are taken, and that aren't.
func anyRequest(random *rand.Rand) string {
	pick := func(of ...string) string { return of[random.Intn(len(of))] }
	some := func(what string) string {
		if random.Intn(3) > 0 {
			return ""
		}
		return what
	}
	value := func() string {
		return pick(`"ann"`, `"ben"`, `1`, `-7`, `1.5`, `1e3`, `9223372036854775808`, `true`, `"true"`, `"+007"`, `"2026-03-01"`,
			`"2026-02-30"`, `"11:00:00"`, `"11:00:00.0"`, `"24:00:00"`, `"11:00:00+01:00"`, `"2026-03-01T11:00:00Z"`,
			`"2026-03-01T11:00:00-05:30"`, `"2026-03-01T11:00:00.5"`, `"0000-01-01T00:00:00"`, `"P1Y"`, `"P"`, `"-P2Y3M"`, `null`, `{}`, `[]`)
	}
	attribute := func() string {
		if random.Intn(10) > 0 {
			return `{"AttributeId":"` + pick("name", "now") + `",` + some(`"IncludeInResult":true,`) + pick(`"Value":"ann"`,
				`"DataType":"integer","Value":["+007",2]`, `"DataType":"dateTime","Value":"2026-03-01T11:00:00Z"`, `"Value":[true,false]`,
				`"DataType":"dateTime","Value":"2026-03-01T11:00:00.000-05:30"`, `"DataType":"time","Value":["11:00:00","11:00:00.0"]`,
				`"DataType":"double","Value":1`, `"Value":[1,2.5]`, `"DataType":"yearMonthDuration","Value":"-P14M"`, `"Value":[]`) + `}`
		}
		values := value()
		if random.Intn(3) == 0 {
			values = `[` + value() + `,` + values + `]`
		}
		return `{` + some(`"DataType":"`+pick("string", "integer", "boolean", "dateTime", "http://www.w3.org/2001/XMLSchema#time", "date",
			"yearMonthDuration", "anyURI", "double", "urn:own", "nothing")+`",`) + some(`"IncludeInResult":true,`) +
			some(`"Issuer":"`+pick("", "i")+`",`) + pick(`"AttributeId":"name",`, `"AttributeId":"now",`, ``) + `"Value":` + values + `}`
	}
	category := func(id string) string {
		return `{` + id + some(`"Id":"`+pick("a", "b", "c")+`",`) + `"Attribute":[` + attribute() + some(`,`+attribute()) + `]}`
	}
	own := func() string {
		return category(`"CategoryId":"` + pick(subjectCategory, environment, "urn:own") + `",`)
	}
	return `{"Request":{` + some(`"XPathVersion":"x",`) + some(`"ReturnPolicyIdList":false,`) +
		some(`"MultiRequests":{"RequestReference":[{"ReferenceId":["`+pick("a", "b")+`"]}]},`) + some(`"AccessSubject":`+category("")+`,`) +
		some(`"Environment":[`+category("")+some(`,`+category(""))+`],`) + `"Category":[` + own() + some(`,`+own()) + `]}}`
}

// TestReadAlike sees that what the front reads of a request is what the program does: what that takes is the same behind
// the front's reading, and of what it refuses nothing is left that it refuses.
func TestReadAlike(t *testing.T) {
	w := newTwin(t)
	for _, l := range oneRule(isGiven(subjectCategory, "name", "string", `"ann"`)) {
		w.ask(l)
	}
	random := rand.New(rand.NewSource(80))
	taken, refused, translated := 0, 0, 0
	for i := 0; i < number("FRONT_REQUESTS", 1000); i++ {
		request := anyRequest(random)
		reply := w.ask(`{"do":"ask","request":` + request + `}`)
		read, err := profile.Read([]byte(request), 1000)
		if strings.HasPrefix(reply, `{"Response"`) {
			taken++
			if err != nil || len(read) != 1 {
				t.Fatalf("%s is taken, and read as %d, %v", request, len(read), err)
			}
			if again := w.ask(fmt.Sprintf(`{"do":"ask","request":%s}`, read[0])); again != reply {
				t.Fatalf("%s is answered %s, and as it is read, %s, %s", request, reply, read[0], again)
			}
			continue
		}
		if err != nil {
			refused++
			continue
		}
		translated++
		for _, one := range read {
			if again := w.ask(fmt.Sprintf(`{"do":"ask","request":%s}`, one)); !strings.HasPrefix(again, `{"Response"`) {
				t.Fatalf("%s is read as %s, which is refused: %s", request, one, again)
			}
		}
	}
	t.Logf("%d taken as they are, %d translated, %d refused", taken, translated, refused)
	if taken < 30 || translated < 30 || refused < 30 {
		t.Error("there are too few of a kind")
	}
}
