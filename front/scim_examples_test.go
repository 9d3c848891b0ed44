package main

import (
	"encoding/json"
	"fmt"
	"net/url"
	"reflect"
	"sort"
	"strings"
	"testing"
)

// exampleUser is a user with an attribute of each sort that the core schema has (RFC 7643, 8.2 and 8.3).
const exampleUser = `{
 "schemas":["urn:ietf:params:scim:schemas:core:2.0:User","urn:ietf:params:scim:schemas:extension:enterprise:2.0:User"],
 "externalId":"701984","userName":"mira@clinic.example",
 "name":{"formatted":"Dr Mira T Okoye","familyName":"Okoye","givenName":"Mira","middleName":"T","honorificPrefix":"Dr"},
 "displayName":"Mira Okoye","nickName":"Mi","profileUrl":"https://login.clinic.example/mira",
 "emails":[{"value":"mira@clinic.example","type":"work","primary":true},{"value":"mira@home.example","type":"home"}],
 "addresses":[{"type":"work","streetAddress":"1 Ward Lane","locality":"Leeds","postalCode":"LS1","country":"GB",
  "formatted":"1 Ward Lane\nLeeds LS1","primary":true},{"type":"home","locality":"York","country":"GB"}],
 "phoneNumbers":[{"value":"tel:+44-113-4960000","type":"work"},{"value":"tel:+44-113-4960001","type":"mobile"}],
 "ims":[{"value":"mira","type":"xmpp"}],"photos":[{"value":"https://photos.clinic.example/mira","type":"photo"}],
 "userType":"Employee","title":"Surgeon","preferredLanguage":"en-GB","locale":"en-GB","timezone":"Europe/London",
 "active":true,"entitlements":[{"value":"theatre"}],"roles":[{"value":"surgeon","display":"Surgeon"}],
 "x509Certificates":[{"value":"MIIB"}],
 "urn:ietf:params:scim:schemas:extension:enterprise:2.0:User":{"employeeNumber":"17","costCenter":"41","organization":
  "The Clinic","division":"Theatres","department":"Surgery","manager":{"value":"26118915"}}}`

// TestScimExamples does what the examples of RFC 7644 do: making (3.3), reading (3.4.1), lists (3.4.2), searches
// (3.4.3), replacing (3.5.1), operations (3.5.2), taking away (3.6), and versions (3.14).
func TestScimExamples(t *testing.T) {
	f := provisioned(t, t.TempDir())
	made := f.scim(t, "POST", "/Users", exampleUser)
	id, _ := made.body["id"].(string)
	place := f.url("/scim/v2/Users/" + id)
	if made.status != 201 || made.head.Get("Location") != place || made.head.Get("ETag") == "" ||
		!strings.HasPrefix(made.head.Get("Content-Type"), "application/scim+json") {
		t.Fatalf("it is answered %d with %v", made.status, made.head)
	}
	var given map[string]any
	if err := json.Unmarshal([]byte(exampleUser), &given); err != nil {
		t.Fatal(err)
	}
	meta, _ := made.body["meta"].(map[string]any)
	if meta["resourceType"] != "User" || meta["location"] != place || meta["version"] != made.head.Get("ETag") ||
		meta["created"] == nil || meta["created"] != meta["lastModified"] {
		t.Errorf("it is told of it: %v", meta)
	}
	read := f.scim(t, "GET", "/Users/"+id, "")
	if !reflect.DeepEqual(read.body, made.body) {
		t.Errorf("it is read as %s, and was made as %s", read.text, made.text)
	}
	delete(read.body, "meta")
	delete(read.body, "id")
	if !reflect.DeepEqual(read.body, given) {
		t.Errorf("it is read as %s, and was sent as %s", read.text, exampleUser)
	}
	got := f.scim(t, "GET", "/Users/"+id+"?attributes=userName,emails.value,name.givenName", "")
	if want := "[emails id name schemas userName]"; fmt.Sprint(keysOf(got.body)) != want ||
		fmt.Sprint(got.body["name"]) != "map[givenName:Mira]" {
		t.Errorf("with some attributes it is told as %s", got.text)
	}
	got = f.scim(t, "GET", "/Users/"+id+"?excludedAttributes=emails,name.familyName,id", "")
	if got.body["emails"] != nil ||
		got.body["id"] == nil || strings.Contains(got.text, "familyName") || !strings.Contains(got.text, "givenName") {
		t.Errorf("without some attributes it is told as %s", got.text)
	}
	for _, version := range []string{made.head.Get("ETag"), `W/"0", ` + made.head.Get("ETag"), "*"} {
		if got := f.scim(t, "GET", "/Users/"+id, "", "If-None-Match", version); got.status != 304 || got.text != "" {
			t.Errorf("where %s is known it is answered %d", version, got.status)
		}
	}
	for _, method := range []string{"PUT", "PATCH", "DELETE"} {
		body := exampleUser
		if method == "PATCH" {
			body = operations(`{"op":"remove","path":"title"}`)
		}
		got := f.scim(t, method, "/Users/"+id, body, "If-Match", `W/"0"`)
		if got.status != 412 || got.body["status"] != "412" {
			t.Errorf("%s behind another version is answered %d %s", method, got.status, got.text)
		}
	}
	patched := f.scim(t, "PATCH", "/Users/"+id, operations(`{"op":"remove","path":"title"}`), "If-Match",
		made.head.Get("ETag"))
	if patched.status != 200 || patched.body["title"] != nil || patched.head.Get("ETag") == made.head.Get("ETag") {
		t.Errorf("it is answered %d %s", patched.status, patched.text)
	}
	got = f.scim(t, "DELETE", "/Users/"+id, "", "If-Match", patched.head.Get("ETag"))
	if got.status != 204 || got.text != "" {
		t.Errorf("it is answered %d %s", got.status, got.text)
	}
	if got := f.scim(t, "GET", "/Users/"+id, ""); got.status != 404 || got.body["status"] != "404" {
		t.Errorf("it is answered %d %s", got.status, got.text)
	}
}

// keysOf are the keys of an object, in order.
func keysOf(of map[string]any) []string {
	var keys []string
	for key := range of {
		keys = append(keys, key)
	}
	sort.Strings(keys)
	return keys
}

// TestScimPatches does operations one behind another: what each leaves is told behind it.
func TestScimPatches(t *testing.T) {
	f := provisioned(t, t.TempDir())
	id := f.made(t, "/Users", aUser("ann", ""))
	for _, one := range []struct{ operation, attribute, want string }{
		{`{"op":"add","path":"emails","value":[{"value":"a@x","type":"work"}]}`, "emails", `[{"type":"work","value":"a@x"}]`},
		{`{"op":"add","path":"emails","value":[{"value":"a@x","type":"work"}]}`, "emails", `[{"type":"work","value":"a@x"}]`},
		{`{"op":"add","value":{"emails":[{"value":"b@x","type":"home","primary":true}],"nickName":"A"}}`, "emails",
			`[{"type":"work","value":"a@x"},{"primary":true,"type":"home","value":"b@x"}]`},
		{`{"op":"add","path":"emails","value":{"value":"c@x","primary":true}}`, "emails",
			`[{"type":"work","value":"a@x"},{"primary":false,"type":"home","value":"b@x"},{"primary":true,"value":"c@x"}]`},
		{`{"op":"replace","path":"emails[type eq \"work\" and value ew \"x\"].value","value":"d@x"}`, "emails",
			`[{"type":"work","value":"d@x"},{"primary":false,"type":"home","value":"b@x"},{"primary":true,"value":"c@x"}]`},
		{`{"op":"replace","path":"emails[type eq \"home\"]","value":{"type":"other","value":"e@x"}}`, "emails",
			`[{"type":"work","value":"d@x"},{"type":"other","value":"e@x"},{"primary":true,"value":"c@x"}]`},
		{`{"op":"remove","path":"emails[type pr].type"}`, "emails",
			`[{"value":"d@x"},{"value":"e@x"},{"primary":true,"value":"c@x"}]`},
		{`{"op":"remove","path":"emails[primary eq true or value sw \"E\"]"}`, "emails", `[{"value":"d@x"}]`},
		{`{"op":"remove","path":"emails[not (value eq \"none\")]"}`, "emails", `null`},
		{`{"op":"replace","path":"name","value":{"givenName":"Ann","familyName":"Lee"}}`, "name",
			`{"familyName":"Lee","givenName":"Ann"}`},
		{`{"op":"replace","path":"name","value":{"givenName":"Anna"}}`, "name", `{"familyName":"Lee","givenName":"Anna"}`},
		{`{"op":"remove","path":"name.familyName"}`, "name", `{"givenName":"Anna"}`},
		{`{"op":"add","path":"name.middleName","value":"B"}`, "name", `{"givenName":"Anna","middleName":"B"}`},
		{`{"op":"remove","path":"name"}`, "name", `null`},
		{`{"op":"replace","path":"nickName","value":null}`, "nickName", `null`},
		{`{"op":"add","path":"urn:example:clinic:User","value":{"cost":3,"badge":{"number":"7"}}}`, "urn:example:clinic:User",
			`{"badge":{"number":"7"},"cost":3}`},
		{`{"op":"replace","path":"urn:example:clinic:User:badge.lost","value":"True"}`, "urn:example:clinic:User",
			`{"badge":{"lost":true,"number":"7"},"cost":3}`},
		{`{"op":"remove","path":"urn:example:clinic:User"}`, "urn:example:clinic:User", `null`},
		{`{"op":"replace","path":"roles","value":["nurse","nurse",{"value":"lead"}]}`, "roles",
			`[{"value":"nurse"},{"value":"lead"}]`},
		{`{"op":"remove","path":"roles","value":[{"value":"nurse"}]}`, "roles", `[{"value":"lead"}]`},
		{`{"op":"replace","path":"roles","value":[]}`, "roles", `null`},
		{`{"op":"replace","path":"id","value":"another"}`, "id", `"` + id + `"`},
	} {
		got := f.scim(t, "PATCH", "/Users/"+id, operations(one.operation))
		said, err := json.Marshal(got.body[one.attribute])
		if err != nil || got.status != 200 || string(said) != one.want {
			t.Errorf("%s: %d %s, and not %s", one.operation, got.status, got.text, one.want)
		}
	}
	if got := f.scim(t, "PATCH", "/Users/"+id, operations(`{"op":"add","path":"title","value":"Dr"}`,
		`{"op":"remove","path":"userName"}`)); got.status != 400 {
		t.Errorf("%d %s", got.status, got.text)
	}
	if got := f.scim(t, "GET", "/Users/"+id, ""); got.body["title"] != nil {
		t.Errorf("of a body that isn't done something is: %s", got.text)
	}
}

// TestScimWrong sends what is wrong, and sees by which word and status it is told (RFC 7644, 3.12).
func TestScimWrong(t *testing.T) {
	f := provisioned(t, t.TempDir())
	id := f.made(t, "/Users", aUser("ann", ""))
	group := f.made(t, "/Groups", `{"displayName":"nurses"}`)
	list := func(filter string) string { return "/Users?filter=" + url.QueryEscape(filter) }
	patch := func(one string) string { return operations(one) }
	for _, one := range []struct {
		method, path, body string
		status             int
		kind               string
	}{
		{"POST", "/Users", "{", 400, "invalidSyntax"}, {"POST", "/Users", "[]", 400, "invalidSyntax"},
		{"POST", "/Users", "null", 400, "invalidSyntax"}, {"POST", "/Users", `{} {}`, 400, "invalidSyntax"},
		{"POST", "/Users", `{"displayName":"x"}`, 400, "invalidValue"},
		{"POST", "/Users", aUser("", ""), 400, "invalidValue"},
		{"POST", "/Users", `{"schemas":["urn:x"],"userName":"x"}`, 400, "invalidValue"},
		{"POST", "/Users", aUser("x", `,"active":"maybe"`), 400, "invalidValue"},
		{"POST", "/Users", aUser("x", `,"title":7`), 400, "invalidValue"},
		{"POST", "/Users", aUser("x", `,"name":"x"`), 400, "invalidValue"},
		{"POST", "/Users", aUser("x", `,"title":["a","b"]`), 400, "invalidValue"},
		{"POST", "/Users", aUser("x", `,"password":"secret"`), 400, "invalidValue"},
		{"POST", "/Users", aUser("x", `,"x509Certificates":[{"value":"no base"}]`), 400, "invalidValue"},
		{"POST", "/Users", aUser("x", `,"urn:example:clinic:User":{"cost":"much"}`), 400, "invalidValue"},
		{"POST", "/Users", aUser("x", `,"emails":[{"value":"a","primary":true},{"value":"b","primary":true}]`), 400,
			"invalidValue"},
		{"POST", "/Users", aUser("aNN", ""), 409, "uniqueness"}, {"POST", "/Groups", `{}`, 400, "invalidValue"},
		{"POST", "/Groups", `{"displayName":"x","members":[{"value":"none"}]}`, 400, "invalidValue"},
		{"POST", "/Groups", `{"displayName":"x","members":[{"display":"none"}]}`, 400, "invalidValue"},
		{"PUT", "/Groups/" + group, `{"displayName":"x","members":[{"value":"` + group + `"}]}`, 400, "invalidValue"},
		{"PUT", "/Users/none", aUser("x", ""), 404, ""}, {"PUT", "/Users/" + group, aUser("x", ""), 404, ""},
		{"PATCH", "/Users/" + id, `{"Operations":[{"op":"move","path":"title"}]}`, 400, "invalidSyntax"},
		{"PATCH", "/Users/" + id, `{"schemas":["urn:x"],"Operations":[]}`, 400, "invalidSyntax"},
		{"PATCH", "/Users/" + id, `{"schemas":["` + patchSchemaID + `"]}`, 400, "invalidSyntax"},
		{"PATCH", "/Users/" + id, patch(`{"op":"add","path":"nothing","value":1}`), 400, "invalidPath"},
		{"PATCH", "/Users/" + id, patch(`{"op":"add","path":"emails[type eq","value":1}`), 400, "invalidPath"},
		{"PATCH", "/Users/" + id, patch(`{"op":"add","path":"title[x eq 1]","value":1}`), 400, "invalidPath"},
		{"PATCH", "/Users/" + id, patch(`{"op":"add","path":"emails[type eq \"work\"].none","value":1}`), 400, "invalidPath"},
		{"PATCH", "/Users/" + id, patch(`{"op":"remove"}`), 400, "noTarget"},
		{"PATCH", "/Users/" + id, patch(`{"op":"remove","path":"userName"}`), 400, "mutability"},
		{"PATCH", "/Users/" + id, patch(`{"op":"remove","path":"meta"}`), 400, "mutability"},
		{"PATCH", "/Users/" + id, patch(`{"op":"replace","path":"userName","value":""}`), 400, "invalidValue"},
		{"PATCH", "/Users/" + id, patch(`{"op":"add","path":"title"}`), 400, "invalidValue"},
		{"PATCH", "/Users/" + id, patch(`{"op":"add","value":[1]}`), 400, "invalidValue"},
		{"PATCH", "/Users/" + id, patch(`{"op":"add","path":"password","value":"x"}`), 400, "invalidValue"},
		{"PATCH", "/Groups/" + group, patch(`{"op":"replace","path":"members[value eq \"x\"]","value":{}}`), 400, "noTarget"},
		{"GET", list(`userName`), "", 400, "invalidFilter"}, {"GET", list(`userName is "x"`), "", 400, "invalidFilter"},
		{"GET", list(`nothing eq "x"`), "", 400, "invalidFilter"}, {"GET", list(`userName eq x`), "", 400, "invalidFilter"},
		{"GET", list(`userName eq "x" and`), "", 400, "invalidFilter"},
		{"GET", list(`(userName pr`), "", 400, "invalidFilter"},
		{"GET", list(`emails[type eq "x"`), "", 400, "invalidFilter"},
		{"GET", list(`active gt true`), "", 400, "invalidFilter"},
		{"GET", list(`name eq "x"`), "", 400, "invalidFilter"}, {"GET", list(`userName eq 7`), "", 400, "invalidFilter"},
		{"GET", list(strings.Repeat("(", 40) + "userName pr" + strings.Repeat(")", 40)), "", 400, "invalidFilter"},
		{"GET", list(strings.Repeat("x", 9000)), "", 400, "invalidFilter"},
		{"GET", "/Users?sortBy=nothing", "", 400, "invalidPath"}, {"GET", "/Users?sortBy=name", "", 400, "invalidPath"},
		{"GET", "/Users?sortBy=title&sortOrder=up", "", 400, "invalidValue"},
		{"GET", "/Users?count=x", "", 400, "invalidValue"},
		{"GET", "/Users?attributes=nothing", "", 400, "invalidPath"}, {"POST", "/.search", "no", 400, "invalidSyntax"},
		{"POST", "/Bulk", "{}", 501, ""}, {"GET", "/Me", "", 501, ""}, {"PATCH", "/Me", "{}", 501, ""},
		{"GET", "/Users/none", "", 404, ""}, {"GET", "/Groups/" + id, "", 404, ""}, {"GET", "/Nothing", "", 404, ""},
		{"GET", "/Schemas/urn:x", "", 404, ""}, {"GET", "/Schemas?filter=id+pr", "", 403, ""},
		{"DELETE", "/Users", "", 405, ""},
	} {
		got := f.scim(t, one.method, one.path, one.body)
		kind, _ := got.body["scimType"].(string)
		detail, _ := got.body["detail"].(string)
		if got.status != one.status || kind != one.kind || got.body["status"] != fmt.Sprint(one.status) || detail == "" ||
			fmt.Sprint(got.body["schemas"]) != "[urn:ietf:params:scim:api:messages:2.0:Error]" {
			t.Errorf("%s %s %s is answered %d %s", one.method, one.path, one.body, got.status, got.text)
		}
	}
}

// TestScimAbout reads what is told of the server: what there is, its types, and schemas that name each attribute once.
func TestScimAbout(t *testing.T) {
	f := provisioned(t, t.TempDir())
	told := f.scim(t, "GET", "/ServiceProviderConfig", "")
	for name, want := range map[string]bool{
		"patch": true, "bulk": false, "filter": true, "sort": true, "etag": true, "changePassword": false,
	} {
		if one, _ := told.body[name].(map[string]any); one["supported"] != want {
			t.Errorf("%s: %v", name, told.body[name])
		}
	}
	for path, want := range map[string][]string{
		"/ResourceTypes": {"User", "Group"},
		"/Schemas":       {userSchemaID, groupSchemaID, enterpriseSchemaID, "urn:example:clinic:User"},
	} {
		list := f.scim(t, "GET", path, "")
		all, _ := list.body["Resources"].([]any)
		var ids []string
		for _, one := range all {
			told, _ := one.(map[string]any)
			id, _ := told["id"].(string)
			ids = append(ids, id)
			if got := f.scim(t, "GET", path+"/"+id, ""); !reflect.DeepEqual(got.body, told) {
				t.Errorf("%s is told alone as %s", id, got.text)
			}
		}
		if fmt.Sprint(ids) != fmt.Sprint(want) || list.body["totalResults"] != float64(len(want)) {
			t.Errorf("%s has %v", path, ids)
		}
	}
}
