package main

import (
	"encoding/json"
	"fmt"
	"io"
	"net/http"
	"os"
	"path/filepath"
	"sort"
	"strings"
	"testing"
)

// scimMapping is which names and rows users have in tests.
const scimMapping = `{"source":"scim","module":1,"people":{"name":{"from":"userName","case":"lower"},"attributes":{
 "department":"urn:ietf:params:scim:schemas:extension:enterprise:2.0:User:department","role":"roles.value",
 "may":"entitlements.value","group":"groups.display","direct":"groups[type eq \"direct\"].display",
 "manager":{"from":"manager.value","named":true},"mail":"emails[type eq \"work\"].value",
 "cost":{"from":"urn:example:clinic:User:cost","type":"integer"},
 "hired":{"from":"urn:example:clinic:User:hired","type":"date"}}},
 "extensions":[{"id":"urn:example:clinic:User","name":"Clinic","attributes":[{"name":"cost","type":"integer"},
 {"name":"hired"},
 {"name":"badge","type":"complex","subAttributes":[{"name":"number"},{"name":"lost","type":"boolean"}]}]}]}`

const (
	userSchemaID       = "urn:ietf:params:scim:schemas:core:2.0:User"
	enterpriseSchemaID = "urn:ietf:params:scim:schemas:extension:enterprise:2.0:User"
	groupSchemaID      = "urn:ietf:params:scim:schemas:core:2.0:Group"
	patchSchemaID      = "urn:ietf:params:scim:api:messages:2.0:PatchOp"
)

// scimFile is a file with a mapping.
func scimFile(t testing.TB, content string) string {
	t.Helper()
	path := filepath.Join(t.TempDir(), "scim.json")
	if err := os.WriteFile(path, []byte(content), 0o600); err != nil {
		t.Fatal(err)
	}
	return path
}

// provisioned is a front that answers SCIM.
func provisioned(t testing.TB, folder string, more ...string) *front {
	t.Helper()
	return begin(t, folder, append([]string{"--scim", scimFile(t, scimMapping)}, more...)...)
}

// scimAnswer is what SCIM answered.
type scimAnswer struct {
	status int
	text   string
	body   map[string]any
	head   http.Header
}

// scim sends something to SCIM's paths.
func (f *front) scim(t testing.TB, method, path, body string, fields ...string) scimAnswer {
	t.Helper()
	got, err := f.tryScim(method, path, body, fields...)
	if err != nil {
		t.Fatal(err)
	}
	return got
}

// tryScim sends something, of which nobody may be there who answers.
func (f *front) tryScim(method, path, body string, fields ...string) (scimAnswer, error) {
	request, err := http.NewRequest(method, f.url("/scim/v2"+path), strings.NewReader(body))
	if err != nil {
		return scimAnswer{}, err
	}
	request.Header.Set("Content-Type", "application/scim+json")
	for i := 0; i+1 < len(fields); i += 2 {
		request.Header.Set(fields[i], fields[i+1])
	}
	answer, err := http.DefaultClient.Do(request)
	if err != nil {
		return scimAnswer{}, err
	}
	defer answer.Body.Close()
	got := scimAnswer{status: answer.StatusCode, head: answer.Header}
	var text strings.Builder
	if _, err := io.Copy(&text, answer.Body); err != nil {
		return scimAnswer{}, err
	}
	if got.text = text.String(); got.text != "" {
		err = json.Unmarshal([]byte(got.text), &got.body)
	}
	return got, err
}

// made makes a resource, and gives its id.
func (f *front) made(t testing.TB, path, body string) string {
	t.Helper()
	got := f.scim(t, http.MethodPost, path, body)
	id, _ := got.body["id"].(string)
	if got.status != http.StatusCreated || id == "" {
		t.Fatalf("%s is answered %d %s", body, got.status, got.text)
	}
	return id
}

// aUser is the body of a user.
func aUser(name, more string) string {
	return fmt.Sprintf(`{"schemas":[%q],"userName":%q%s}`, userSchemaID, name, more)
}

// operations is the body of some operations.
func operations(all ...string) string {
	return fmt.Sprintf(`{"schemas":[%q],"Operations":[%s]}`, patchSchemaID, strings.Join(all, ","))
}

// people are the listed people, in order.
func (f *front) people(t testing.TB) []string {
	t.Helper()
	var told struct{ Names []string }
	if err := json.Unmarshal([]byte(f.must("/names?list=people")), &told); err != nil {
		t.Fatal(err)
	}
	sort.Strings(told.Names)
	return told.Names
}

// rowsOf are the rows of a person, as attribute=values, without the mark.
func (f *front) rowsOf(t testing.TB, name string) string {
	t.Helper()
	var told struct {
		Attributes []struct {
			Attribute string
			Module    int
			Values    []any
		}
	}
	if err := json.Unmarshal([]byte(f.must("/attributes?category=AccessSubject&entity="+name)), &told); err != nil {
		t.Fatal(err)
	}
	var all []string
	for _, one := range told.Attributes {
		if one.Module == 1 && one.Attribute != "urn:review:source:scim" {
			all = append(all, fmt.Sprintf("%s=%v", one.Attribute, one.Values))
		}
	}
	sort.Strings(all)
	return strings.Join(all, " ")
}

// TestScim makes users and groups, changes them and takes them away, and sees their names and rows in the table as soon
// as that is answered.
func TestScim(t *testing.T) {
	f := provisioned(t, t.TempDir())
	rows := func(name, want string) {
		t.Helper()
		if got := f.rowsOf(t, name); got != want {
			t.Errorf("%s has the rows %q, and not %q", name, got, want)
		}
	}
	listed := func(want ...string) {
		t.Helper()
		if got := f.people(t); strings.Join(got, " ") != strings.Join(want, " ") {
			t.Errorf("there are %v, and not %v", got, want)
		}
	}
	boss := f.made(t, "/Users", aUser("Boss", ""))
	ann := f.made(t, "/Users", aUser("Ann", `,"roles":[{"value":"nurse"},{"value":"lead"}],
		"entitlements":[{"value":"x-ray"}],
		"emails":[{"value":"ann@home","type":"home"},{"value":"ann@work","type":"work"}],
		"urn:ietf:params:scim:schemas:extension:enterprise:2.0:User":{"department":"surgery","manager":{"value":"`+boss+`"}},
		"urn:example:clinic:User":{"cost":12,"hired":"2020-02-01"}`))
	listed("ann", "boss")
	rows("ann", "cost=[12] department=[surgery] hired=[2020-02-01] mail=[ann@work] manager=[boss] may=[x-ray] "+
		"role=[lead nurse]")
	inner := f.made(t, "/Groups", `{"displayName":"nurses","members":[{"value":"`+ann+`"}]}`)
	f.made(t, "/Groups", `{"displayName":"staff","members":[{"value":"`+inner+`"}]}`)
	rows("ann", "cost=[12] department=[surgery] direct=[nurses] group=[nurses staff] hired=[2020-02-01] mail=[ann@work] "+
		"manager=[boss] may=[x-ray] role=[lead nurse]")
	patch := func(path, operation string, want int) {
		t.Helper()
		if got := f.scim(t, http.MethodPatch, path, operations(operation)); got.status != want {
			t.Errorf("%+v", got)
		}
	}
	patch("/Users/"+boss, `{"op":"replace","path":"userName","value":"Chief"}`, 200)
	rows("ann", "cost=[12] department=[surgery] direct=[nurses] group=[nurses staff] hired=[2020-02-01] mail=[ann@work] "+
		"manager=[chief] may=[x-ray] role=[lead nurse]") // at once: nothing of hers was sent
	patch("/Groups/"+inner, `{"op":"replace","path":"displayName","value":"carers"}`, 204)
	listed("ann", "chief")
	rows("ann", "cost=[12] department=[surgery] direct=[carers] group=[carers staff] hired=[2020-02-01] mail=[ann@work] "+
		"manager=[chief] may=[x-ray] role=[lead nurse]")
	patch("/Groups/"+inner, `{"op":"remove","path":"members"}`, 204)
	rows("ann", "cost=[12] department=[surgery] hired=[2020-02-01] mail=[ann@work] manager=[chief] may=[x-ray] "+
		"role=[lead nurse]")
	patch("/Groups/"+inner, `{"op":"add","path":"members","value":[{"value":"`+ann+`"}]}`, 204)
	if got := f.scim(t, http.MethodPut, "/Users/"+ann, aUser("ann", `,"roles":["nurse"]`)); got.status != 200 {
		t.Errorf("%+v", got)
	}
	rows("ann", "direct=[carers] group=[carers staff] role=[nurse]")
	if got := f.scim(t, http.MethodDelete, "/Groups/"+inner, ""); got.status != 204 {
		t.Errorf("%+v", got)
	}
	rows("ann", "role=[nurse]")
	patch("/Users/"+ann, `{"op":"replace","path":"active","value":false}`, 200)
	listed("chief")
	rows("ann", "")
	for _, want := range []int{204, 404} {
		if got := f.scim(t, http.MethodDelete, "/Users/"+ann, ""); got.status != want {
			t.Errorf("%+v", got)
		}
	}
	if got := f.metric("review_front_scim_users"); got != 1 {
		t.Errorf("there are %v users", got)
	}
}

// TestScimNotices hears that somebody has another name: the old one goes and the new one comes.
func TestScimNotices(t *testing.T) {
	f := provisioned(t, t.TempDir())
	f.accept(clinic(t)...)
	id := f.made(t, "/Users", aUser("zoe", ""))
	serial := f.metric("review_front_serial")
	f.scim(t, http.MethodPatch, "/Users/"+id, operations(`{"op":"Replace","path":"userName","value":"zora"}`))
	var told struct {
		Changes []struct {
			Person        string
			Before, After *string
		}
	}
	eventually(t, "what changed is known", func() bool {
		return json.Unmarshal([]byte(f.must(fmt.Sprintf("/changes?since=%d", int(serial)))), &told) == nil
	})
	gone, come := 0, 0
	for _, one := range told.Changes {
		switch {
		case one.Person == "zoe" && one.After == nil:
			gone++
		case one.Person == "zora" && one.Before == nil:
			come++
		}
	}
	if gone != 60 || come != 60 || len(told.Changes) != 120 {
		t.Errorf("%d went and %d came of %d", gone, come, len(told.Changes))
	}
}

// TestScimRecords sees what the journal has: resources as records, of a format that is theirs, and edits by whom the
// request was.
func TestScimRecords(t *testing.T) {
	path := t.TempDir()
	f := provisioned(t, path, "--by-header", "User")
	if got := formatOf(t, path); got != 3 {
		t.Errorf("without a user the format is %d", got)
	}
	f.scim(t, http.MethodPost, "/Users", aUser("ann", `,"roles":[{"value":"nurse"}]`), "User", "okta")
	if got := formatOf(t, path); got != 5 {
		t.Errorf("with a user the format is %d", got)
	}
	var told struct {
		Edits []struct{ By, Kind string }
	}
	if err := json.Unmarshal([]byte(f.must("/edits")), &told); err != nil {
		t.Fatal(err)
	}
	want := "[{okta scim.create} {okta attr.set} {okta attr.set} {okta person.add}]"
	if got := fmt.Sprint(told.Edits); got != want {
		t.Errorf("the journal has %s, and not %s", got, want)
	}
	if reply := f.lines(`{"do":"scim.delete","type":"User"}`)[0]; reply != `{"refused":4}` {
		t.Errorf("a record as a line is answered %s", reply)
	}
}
