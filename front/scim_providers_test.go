package main

import (
	"fmt"
	"net/http"
	"net/url"
	"strings"
	"testing"
)

// scimAsked is a request as a provider sends it, and what is to be answered and so behind it. `{ann}` stands for the id
// of a user, `{nurses}` for that of a group.
type scimAsked struct {
	what, method, path, body string
	status                   int
	has                      string // what stands in the answer
	rows                     string // those of ann then
}

// startOfProviders makes ann and bob, and the group nurses, in which ann is.
func startOfProviders(t *testing.T) (*front, *strings.Replacer) {
	f := provisioned(t, t.TempDir())
	ann := f.made(t, "/Users", aUser("ann", `,"active":true,"externalId":"42","emails":[{"value":"a@x","type":"work",
		"primary":true}]`))
	bob := f.made(t, "/Users", aUser("bob", ""))
	nurses := f.made(t, "/Groups", `{"displayName":"nurses","members":[{"value":"`+ann+`"}]}`)
	return f, strings.NewReplacer("{ann}", ann, "{bob}", bob, "{nurses}", nurses)
}

// with is the body of one operation.
func with(operation string) string { return operations(operation) }

// providers are requests as large providers send them, each behind those before it.
var providers = []scimAsked{
	{"a user who isn't there is looked for before it is made", "GET", `/Users?filter=userName eq "none"`, "", 200,
		`"totalResults":0`, "direct=[nurses] group=[nurses] mail=[a@x]"},
	{"one is looked for in another case", "GET", `/Users?filter=userName eq "ANN"`, "", 200, `"userName":"ann"`, ""},
	{"one is looked for by an id of theirs", "GET", `/Users?filter=externalId eq "42"`, "", 200, `"userName":"ann"`, ""},
	{"one is made twice", "POST", "/Users", aUser("Ann", ""), 409, `"scimType":"uniqueness"`, ""},
	{"words of operations are large", "PATCH", "/Users/{ann}", with(`{"op":"Add","path":"title","value":"Dr"}`), 200,
		`"title":"Dr"`, ""},
	{"and what is replaced", "PATCH", "/Users/{ann}", with(`{"op":"Replace","path":"title","value":"Prof"}`), 200,
		`"title":"Prof"`, ""},
	{"a part of an extension, by the schema's name", "PATCH", "/Users/{ann}",
		with(`{"op":"Add","path":"urn:ietf:params:scim:schemas:extension:enterprise:2.0:User:department","value":"surgery"}`),
		200, `"department":"surgery"`, "department=[surgery] direct=[nurses] group=[nurses] mail=[a@x]"},
	{"in another case", "PATCH", "/Users/{ann}",
		with(`{"op":"replace","path":"URN:ietf:params:scim:schemas:extension:Enterprise:2.0:user:Department","value":"er"}`),
		200, `"department":"er"`, "department=[er] direct=[nurses] group=[nurses] mail=[a@x]"},
	{"a manager as a text", "PATCH", "/Users/{ann}",
		with(`{"op":"Add","path":"urn:ietf:params:scim:schemas:extension:enterprise:2.0:User:manager","value":"{bob}"}`),
		200, `"manager":{"value":"{bob}"}`, "department=[er] direct=[nurses] group=[nurses] mail=[a@x] manager=[bob]"},
	{"a manager as a list", "PATCH", "/Users/{ann}",
		with(`{"op":"Add","path":"urn:ietf:params:scim:schemas:extension:enterprise:2.0:User:manager","value":[{"$ref":` +
			`"../Users/{bob}","value":"{bob}"}]}`), 200, `"value":"{bob}"`, ""},
	{"a manager who goes", "PATCH", "/Users/{ann}",
		with(`{"op":"Remove","path":"urn:ietf:params:scim:schemas:extension:enterprise:2.0:User:manager"}`), 200, "",
		"department=[er] direct=[nurses] group=[nurses] mail=[a@x]"},
	{"an address of a type", "PATCH", "/Users/{ann}",
		with(`{"op":"Replace","path":"emails[type eq \"work\"].value","value":"b@x"}`), 200, `"value":"b@x"`,
		"department=[er] direct=[nurses] group=[nurses] mail=[b@x]"},
	{"a number of a type that isn't there yet", "PATCH", "/Users/{ann}",
		with(`{"op":"Add","path":"phoneNumbers[type eq \"mobile\"].value","value":"12"}`), 200,
		`"phoneNumbers":[{"type":"mobile","value":"12"}]`, ""},
	{"one that is to be replaced and isn't there", "PATCH", "/Users/{ann}",
		with(`{"op":"Replace","path":"phoneNumbers[type eq \"fax\"].value","value":"12"}`), 400, `"scimType":"noTarget"`, ""},
	{"no path, and names of parts", "PATCH", "/Users/{ann}",
		with(`{"op":"Replace","value":{"name.givenName":"Ann","name.familyName":"Lee","displayName":"Ann Lee",` +
			`"urn:ietf:params:scim:schemas:extension:enterprise:2.0:User:department":"icu"}}`), 200,
		`"name":{"familyName":"Lee","givenName":"Ann"}`, "department=[icu] direct=[nurses] group=[nurses] mail=[b@x]"},
	{"no path, and what only the server sets", "PATCH", "/Users/{ann}",
		with(`{"op":"replace","value":{"id":"{ann}","displayName":"Ann"}}`), 200, `"displayName":"Ann"`, ""},
	{"an object as a text", "PATCH", "/Users/{ann}",
		with(`{"op":"replace","value":"{\"nickName\":\"annie\"}"}`), 200, `"nickName":"annie"`, ""},
	{"roles", "PATCH", "/Users/{ann}",
		with(`{"op":"Add","path":"roles","value":[{"value":"nurse","display":"Nurse","primary":"False"}]}`), 200,
		`"primary":false`, "department=[icu] direct=[nurses] group=[nurses] mail=[b@x] role=[nurse]"},
	{"the preferred role", "PATCH", "/Users/{ann}",
		with(`{"op":"Add","path":"roles[primary eq \"True\"].value","value":"lead"}`), 200, `"primary":true`,
		"department=[icu] direct=[nurses] group=[nurses] mail=[b@x] role=[lead nurse]"},
	{"all roles go", "PATCH", "/Users/{ann}", with(`{"op":"Remove","path":"roles"}`), 200, "",
		"department=[icu] direct=[nurses] group=[nurses] mail=[b@x]"},
	{"an empty list is sent along", "PUT", "/Users/{ann}", aUser("ann", `,"id":"{ann}","externalId":"42","active":true,
		"groups":[],"roles":[],"locale":"en-US","name":{"givenName":"Ann","familyName":"Lee"},
		"meta":{"resourceType":"User"}`), 200, `"locale":"en-US"`, "direct=[nurses] group=[nurses]"},
	{"a group without its members", "GET", `/Groups/{nurses}?excludedAttributes=members`, "", 200,
		`"displayName":"nurses"`, ""},
	{"a group by its name", "GET", `/Groups?excludedAttributes=members&filter=displayName eq "Nurses"`, "", 200,
		`"totalResults":1`, ""},
	{"whether somebody is in a group", "GET", `/Groups?filter=id eq "{nurses}" and members eq "{ann}"`, "", 200,
		`"totalResults":1`, ""},
	{"or isn't", "GET", `/Groups?filter=id eq "{nurses}" and members[value eq "{bob}"]`, "", 200, `"totalResults":0`, ""},
	{"a member goes, by a filter", "PATCH", "/Groups/{nurses}",
		with(`{"op":"remove","path":"members[value eq \"{ann}\"]"}`), 204, "", "none"},
	{"once more", "PATCH", "/Groups/{nurses}", with(`{"op":"remove","path":"members[value eq \"{ann}\"]"}`), 204, "",
		"none"},
	{"a member comes", "PATCH", "/Groups/{nurses}",
		with(`{"op":"Add","path":"members","value":[{"value":"{ann}"},{"value":"{bob}"}]}`), 204, "",
		"direct=[nurses] group=[nurses]"},
	{"members go that are named", "PATCH", "/Groups/{nurses}",
		with(`{"op":"Remove","path":"members","value":[{"value":"{bob}"}]}`), 204, "", "direct=[nurses] group=[nurses]"},
	{"members are replaced, with what they are called", "PATCH", "/Groups/{nurses}",
		with(`{"op":"replace","path":"members","value":[{"value":"{bob}","display":"bob"},` +
			`{"value":"{ann}","display":"ann"}]}`), 204, "", "direct=[nurses] group=[nurses]"},
	{"a group's name, without a path", "PATCH", "/Groups/{nurses}",
		with(`{"op":"replace","value":{"id":"{nurses}","displayName":"carers"}}`), 204, "", "direct=[carers] group=[carers]"},
	{"a group as a whole", "PUT", "/Groups/{nurses}", `{"schemas":["` + groupSchemaID + `"],"id":"{nurses}",
		"displayName":"nurses","members":[{"value":"{ann}","display":"ann"}]}`, 200, `"displayName":"nurses"`,
		"direct=[nurses] group=[nurses]"},
	{"a member who isn't there", "PATCH", "/Groups/{nurses}",
		with(`{"op":"add","path":"members","value":[{"value":"nobody"}]}`), 400, `"scimType":"invalidValue"`, ""},
	{"deactivated by a text", "PATCH", "/Users/{ann}", with(`{"op":"Replace","path":"active","value":"False"}`), 200,
		`"active":false`, "none"},
	{"still in the group", "GET", "/Users/{ann}", "", 200, `"display":"nurses"`, "none"},
	{"and back", "PATCH", "/Users/{ann}", with(`{"op":"replace","value":{"active":true}}`), 200, `"active":true`,
		"direct=[nurses] group=[nurses]"},
	{"deactivated before it is taken away", "PATCH", "/Users/{ann}", with(`{"op":"replace","value":{"active":false}}`),
		200, `"active":false`, "none"},
	{"taken away", "DELETE", "/Users/{ann}", "", 204, "", "none"},
	{"taken away once more", "DELETE", "/Users/{ann}", "", 404, `"status":"404"`, "none"},
	{"a group has no member who isn't there", "GET", `/Groups?filter=members eq "{ann}"`, "", 200, `"totalResults":0`, ""},
	{"made again", "POST", "/Users", aUser("ann", `,"password":null`), 400, `"scimType":"invalidValue"`, ""},
}

// TestScimProviders sends what large providers send, one behind another.
func TestScimProviders(t *testing.T) {
	f, ids := startOfProviders(t)
	for _, one := range providers {
		path, query, _ := strings.Cut(ids.Replace(one.path), "?")
		if query != "" {
			var parts []string
			for _, part := range strings.Split(query, "&") {
				name, value, _ := strings.Cut(part, "=")
				parts = append(parts, name+"="+url.QueryEscape(value))
			}
			path += "?" + strings.Join(parts, "&")
		}
		got := f.scim(t, one.method, path, ids.Replace(one.body))
		if got.status != one.status || !strings.Contains(got.text, ids.Replace(one.has)) {
			t.Errorf("%s: it is answered %d %s, and not %d with %s", one.what, got.status, got.text, one.status, one.has)
		}
		want := one.rows
		if want == "none" {
			want = ""
		}
		if rows := f.rowsOf(t, "ann"); one.rows != "" && rows != want {
			t.Errorf("%s: ann has the rows %q, and not %q", one.what, rows, want)
		}
	}
}

// TestScimRetries sends requests again: what is so already makes no record, and has the version that it had.
func TestScimRetries(t *testing.T) {
	f, ids := startOfProviders(t)
	version := f.scim(t, "GET", ids.Replace("/Users/{ann}"), "").head.Get("ETag")
	serial := f.metric("review_front_serial")
	for _, one := range [][2]string{
		{"PATCH", with(`{"op":"replace","path":"active","value":true}`)},
		{"PATCH", with(`{"op":"add","path":"emails","value":[{"value":"a@x","type":"work","primary":true}]}`)},
		{"PUT", aUser("ann", `,"active":true,"externalId":"42","emails":[{"value":"a@x","type":"work","primary":true}]`)},
	} {
		got := f.scim(t, one[0], ids.Replace("/Users/{ann}"), one[1])
		if got.status != 200 || got.head.Get("ETag") != version {
			t.Errorf("%s is answered %d, version %s", one, got.status, got.head.Get("ETag"))
		}
	}
	if got := f.metric("review_front_serial"); got != serial {
		t.Errorf("what is so already is %v records", got-serial)
	}
}

// TestScimLargeGroup has 5,000 members come to a group in parts, and go.
func TestScimLargeGroup(t *testing.T) {
	f := provisioned(t, t.TempDir(), "--people", "6000", "--cells", "100000", "--patience", "60s")
	count, part := number("FRONT_SCIM_MEMBERS", 5000), 1000
	if testing.Short() {
		count = 1000
	}
	ids := f.madeAll(t, count)
	group := f.made(t, "/Groups", `{"displayName":"all"}`)
	members := func(ids []string) string {
		var all []string
		for _, id := range ids {
			all = append(all, `{"value":"`+id+`"}`)
		}
		return strings.Join(all, ",")
	}
	for from := 0; from < count; from += part {
		got := f.scim(t, "PATCH", "/Groups/"+group,
			with(`{"op":"Add","path":"members","value":[`+members(ids[from:from+part])+`]}`))
		if got.status != http.StatusNoContent {
			t.Fatalf("%d: %s", got.status, got.text)
		}
	}
	told := f.scim(t, "GET", "/Groups/"+group, "")
	if some, _ := told.body["members"].([]any); len(some) != count {
		t.Errorf("the group has %d members", len(some))
	}
	for _, at := range []int{0, count - 1} {
		if got := f.rowsOf(t, fmt.Sprintf("u%05d", at)); got != "direct=[all] group=[all]" {
			t.Errorf("user %d has the rows %q", at, got)
		}
	}
	if got := f.scim(t, "PATCH", "/Groups/"+group, with(`{"op":"remove","path":"members"}`)); got.status != 204 {
		t.Fatal(got.text)
	}
	eventually(t, "nobody is in the group", func() bool { return f.rowsOf(t, fmt.Sprintf("u%05d", count-1)) == "" })
}
