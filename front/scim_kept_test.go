package main

import (
	"encoding/json"
	"fmt"
	"net/http"
	"os"
	"path/filepath"
	"sort"
	"strings"
	"sync"
	"testing"
	"time"
)

// resources are all users and groups as they are told, but for where they are.
func (f *front) resources(t testing.TB) string {
	t.Helper()
	var all []string
	for _, path := range []string{"/Users?count=1000", "/Groups?count=1000"} {
		got := f.scim(t, "GET", path, "")
		for _, one := range asList(got.body["Resources"]) {
			written, err := json.Marshal(one)
			if err != nil {
				t.Fatal(err)
			}
			all = append(all, strings.ReplaceAll(string(written), f.address, "HERE"))
		}
	}
	return strings.Join(all, "\n")
}

// someScim makes users and groups, changes them, and takes some away.
func someScim(t testing.TB, f *front) {
	t.Helper()
	var ids []string
	for i := 0; i < 12; i++ {
		more := `,"roles":["nurse"],"addresses":[{"country":"GB"}]`
		ids = append(ids, f.made(t, "/Users", aUser(fmt.Sprintf("user%d", i), more)))
	}
	group := f.made(t, "/Groups", `{"displayName":"all","members":[{"value":"`+strings.Join(ids, `"},{"value":"`)+`"}]}`)
	f.made(t, "/Groups", `{"displayName":"empty"}`)
	f.made(t, "/Groups", `{"displayName":"outer","members":[{"value":"`+group+`"}]}`)
	for i, id := range ids {
		if i%3 == 0 {
			f.scim(t, "PATCH", "/Users/"+id, operations(`{"op":"replace","path":"active","value":false}`))
		}
		if i%4 == 0 {
			f.scim(t, "DELETE", "/Users/"+id, "")
		}
	}
}

// TestScimKept starts anew over users and groups: from snapshots, journals, copies, behind a front without SCIM, and
// once old journals are gone. All is told as it was, with versions and times, and the table has their rows.
func TestScimKept(t *testing.T) {
	path := t.TempDir()
	words := []string{"--snapshot-every", "40"}
	f := provisioned(t, path, words...)
	someScim(t, f)
	want, rows := f.resources(t), fmt.Sprint(tableOf(t, f))
	serial := uint64(f.metric("review_front_serial"))
	again := func(what string, change func()) {
		t.Helper()
		f.kill()
		change()
		f = provisioned(t, path, words...)
		if got := f.resources(t); got != want {
			t.Errorf("%s: it is told as\n%.2000s\nand was\n%.2000s", what, got, want)
		}
		eventually(t, what+": the table has the rows", func() bool { return fmt.Sprint(tableOf(t, f)) == rows })
	}
	again("a kill", func() {})
	again("an end", func() {
		f = provisioned(t, path, words...)
		f.stop()
	})
	again("a front without SCIM", func() {
		f = begin(t, path, "--snapshot-every", "1")
		f.accept(`{"do":"action.add","name":"read"}`, `{"do":"action.drop","name":"read"}`)
		f.stop()
	})
	if status, said, _ := saying("verify", "--journal", path); status != 0 {
		t.Errorf("verify says %s", said)
	}
	again("old journals are gone", func() {
		f = provisioned(t, path, append(words, "--keep", "1ns", "--keep-history", "1ns")...)
		f.accept(`{"do":"action.add","name":"read"}`, `{"do":"action.drop","name":"read"}`)
		f.stop()
		f = provisioned(t, path, append(words, "--keep", "1ns", "--keep-history", "1ns")...)
		f.accept(`{"do":"action.add","name":"read"}`, `{"do":"action.drop","name":"read"}`)
		f.stop()
		if _, err := os.Stat(filepath.Join(path, "journal-00000000000000000001")); err == nil {
			t.Error("the first journal is there still")
		}
	})
	again("a copy", func() {
		copied := filepath.Join(t.TempDir(), "copy")
		if status, _, faults := saying("repair", "--journal", path, copied); status != 0 {
			t.Fatal(faults)
		}
		path = copied
	})
	if now := uint64(f.metric("review_front_serial")); now < serial {
		t.Errorf("the serial is %d, and was %d", now, serial)
	}
}

// TestScimRestored makes folders that end with each record: a front over one tells what was told behind that record.
func TestScimRestored(t *testing.T) {
	path := t.TempDir()
	f := provisioned(t, path, "--snapshot-every", "15")
	told := map[int]string{}
	note := func() { told[int(f.metric("review_front_serial"))] = f.resources(t) }
	ann := f.made(t, "/Users", aUser("ann", `,"title":"Dr"`))
	note()
	group := f.made(t, "/Groups", `{"displayName":"g","members":[{"value":"`+ann+`"}]}`)
	note()
	for i := 0; i < 12; i++ {
		title := fmt.Sprintf(`{"op":"replace","value":{"title":"%d","roles":["r%d"]}}`, i, i)
		f.scim(t, "PATCH", "/Users/"+ann, operations(title))
		note()
	}
	f.scim(t, "DELETE", "/Users/"+ann, "")
	note()
	f.scim(t, "PATCH", "/Groups/"+group, operations(`{"op":"replace","path":"displayName","value":"h"}`))
	note()
	f.stop()
	var serials []int
	for serial := range told {
		serials = append(serials, serial)
	}
	sort.Ints(serials)
	for _, serial := range serials {
		out := filepath.Join(t.TempDir(), "out")
		if status, _, faults := saying("restore", "--journal", path, "--to", fmt.Sprint(serial), out); status != 0 {
			t.Fatal(faults)
		}
		other := provisioned(t, out)
		if got := other.resources(t); got != told[serial] {
			t.Errorf("as of serial %d it is told as\n%s\nand was\n%s", serial, got, told[serial])
		}
		other.kill()
	}
}

// TestScimBehind sees that somebody whose rows the table refuses is told, and is in the table once they fit.
func TestScimBehind(t *testing.T) {
	f := provisioned(t, t.TempDir(), "--people", "2")
	for _, name := range []string{"ann", "bob", "cat"} {
		f.made(t, "/Users", aUser(name, ""))
	}
	long := f.made(t, "/Users", aUser("dan", `,"urn:example:clinic:User":{"hired":"soon"},"active":true`))
	var told struct {
		Behind []struct{ Name, ID, Why string }
		Count  int `json:"behind_count"`
	}
	read := func() string {
		if err := json.Unmarshal([]byte(f.must("/scim/hold")), &told); err != nil {
			t.Fatal(err)
		}
		return fmt.Sprint(told.Behind)
	}
	if got := read(); !strings.Contains(got, "{cat  refusal 9}") || !strings.Contains(got, "{ "+long+" hired") ||
		told.Count != 2 {
		t.Errorf("behind are %s", got)
	}
	if got := f.metric("review_front_scim_behind"); got != 2 {
		t.Errorf("%v are behind", got)
	}
	all := asList(f.scim(t, "GET", `/Users?filter=userName+eq+%22ann%22`, "").body["Resources"])
	id, _ := all[0]["id"].(string)
	f.scim(t, "DELETE", "/Users/"+id, "")
	f.scim(t, "DELETE", "/Users/"+long, "")
	eventually(t, "cat is in the table", func() bool { return fmt.Sprint(f.people(t)) == "[bob cat]" && read() == "[]" })
}

// TestScimDisk has the disk be full while users are made: who got 503 isn't there, who was answered is, and the table has
// their rows once there is room again.
func TestScimDisk(t *testing.T) {
	path := t.TempDir()
	f := provisioned(t, path, "--patience", "500ms")
	var names []string
	next := func() int {
		name := fmt.Sprintf("user%d", len(names))
		got := f.scim(t, "POST", "/Users", aUser(name, `,"roles":["nurse"],"title":"`+strings.Repeat("x", 300)+`"`))
		if got.status == http.StatusCreated {
			names = append(names, name)
		} else if got.status != http.StatusServiceUnavailable {
			t.Fatalf("%d %s", got.status, got.text)
		}
		return got.status
	}
	same := func(what string) {
		t.Helper()
		eventually(t, what+": users are told", func() bool {
			got := f.scim(t, "GET", "/Users?count=1000", "")
			return got.status == 200 && got.body["totalResults"] == float64(len(names))
		})
	}
	next()
	limitFiles(t, f.process.Process.Pid, 24_000)
	for next() == http.StatusCreated {
		if len(names) == 1000 {
			t.Fatal("the disk isn't full")
		}
	}
	same("the disk is full")
	limitFiles(t, f.process.Process.Pid, 1<<40)
	eventually(t, "a user is taken", func() bool { return next() == http.StatusCreated })
	table := func() bool { return len(f.people(t)) == len(names) }
	same("there is room again")
	eventually(t, "the table has all", table)
	f.kill()
	f = provisioned(t, path)
	same("behind a kill")
	eventually(t, "the table has all behind a kill", table)
}

// TestScimTogether has several clients change one user at once: no change is lost.
func TestScimTogether(t *testing.T) {
	f := provisioned(t, t.TempDir())
	id := f.made(t, "/Users", aUser("ann", ""))
	const clients, each = 6, 10
	var all sync.WaitGroup
	for client := 0; client < clients; client++ {
		all.Add(1)
		go func(client int) {
			defer all.Done()
			for i := 0; i < each; i++ {
				role := fmt.Sprintf(`{"op":"add","path":"roles","value":"r%d-%d"}`, client, i)
				for try := 0; try < 20; try++ { // behind ten tries it is 412
					if got, err := f.tryScim("PATCH", "/Users/"+id, operations(role)); err == nil && got.status == 200 {
						break
					}
				}
			}
		}(client)
	}
	all.Wait()
	if got := asList(f.scim(t, "GET", "/Users/"+id, "").body["roles"]); len(got) != clients*each {
		t.Errorf("of %d roles there are %d", clients*each, len(got))
	}
}

// TestScimHold has more people go than may: that is refused and provisioning held, also behind a start, until somebody
// lets it on.
func TestScimHold(t *testing.T) {
	path := t.TempDir()
	words := []string{"--scim-at-most", "20%", "--snapshot-every", "5"}
	f := provisioned(t, path, words...)
	var ids []string
	for i := 0; i < 10; i++ {
		ids = append(ids, f.made(t, "/Users", aUser(fmt.Sprintf("user%d", i), "")))
	}
	want := func(what string, got scimAnswer, status int) {
		t.Helper()
		if got.status != status || status == 503 && got.head.Get("Retry-After") == "" {
			t.Errorf("%s is answered %d %s", what, got.status, got.text)
		}
	}
	off := operations(`{"op":"replace","path":"active","value":false}`)
	want("the first", f.scim(t, "DELETE", "/Users/"+ids[0], ""), 204)
	renamed := operations(`{"op":"replace","path":"userName","value":"new"}`)
	want("a new name", f.scim(t, "PATCH", "/Users/"+ids[5], renamed), 200)
	want("the second", f.scim(t, "PATCH", "/Users/"+ids[1], off), 200)
	want("who is gone already", f.scim(t, "DELETE", "/Users/"+ids[1], ""), 204)
	want("the third", f.scim(t, "PATCH", "/Users/"+ids[2], off), 503)
	want("anything, then", f.scim(t, "POST", "/Users", aUser("zoe", "")), 503)
	want("reading", f.scim(t, "GET", "/Users/"+ids[2], ""), 200)
	if got := f.metric("review_front_scim_held"); got != 1 {
		t.Errorf("it is held: %v", got)
	}
	if got := fmt.Sprint(f.people(t)); strings.Count(got, "user")+strings.Count(got, "new") != 8 {
		t.Errorf("there are %s", got)
	}
	f.kill()
	f = provisioned(t, path, words...)
	want("behind a kill", f.scim(t, "POST", "/Users", aUser("zoe", "")), 503)
	f.stop()
	f = provisioned(t, path, words...)
	want("behind an end", f.scim(t, "POST", "/Users", aUser("zoe", "")), 503)
	if told := f.must("/scim/hold"); !strings.Contains(told, `"why":"3 of 10 people would have gone within 1h0m0s`) {
		t.Errorf("it is told as %s", told)
	}
	for _, status := range []int{204, 404} {
		if got := f.send(t, http.MethodDelete, "/scim/hold", ""); got.status != status {
			t.Errorf("letting it on is answered %+v", got)
		}
	}
	want("the third, then", f.scim(t, "PATCH", "/Users/"+ids[2], off), 200)
	want("the fourth", f.scim(t, "PATCH", "/Users/"+ids[3], off), 200)
	want("somebody new", f.scim(t, "POST", "/Users", aUser("zoe", "")), 201)
	if got := f.send(t, http.MethodPost, "/scim/hold", `{"why":"we look at it"}`); got.status != 200 {
		t.Errorf("holding it is answered %+v", got)
	}
	if got := f.send(t, http.MethodPost, "/scim/hold", `{"why":"once more"}`); got.status != 409 {
		t.Errorf("holding it once more is answered %+v", got)
	}
	if got := f.send(t, http.MethodPost, "/scim/hold", `{}`); got.status != 400 {
		t.Errorf("holding it without a word is answered %+v", got)
	}
	want("what is held by hand", f.scim(t, "POST", "/Users", aUser("yan", "")), 503)
}

// TestScimHoldPermits has rows of one user go by which more Permits are lost than may be: what is so is so, and
// provisioning is held behind it, until somebody lets it on. A user with another name loses none.
func TestScimHoldPermits(t *testing.T) {
	mapping := strings.Replace(scimMapping, `"module":1`, `"module":0`, 1)
	f := begin(t, t.TempDir(), "--scim", scimFile(t, mapping), "--scim-at-most", "5%")
	f.accept(clinic(t)...)
	nurse := f.made(t, "/Users", aUser("zoe", `,"roles":["nurse"]`))
	holds := func() bool { return f.metric("review_front_scim_held") == 1 }
	f.scim(t, "PATCH", "/Users/"+nurse, operations(`{"op":"replace","path":"userName","value":"zora"}`))
	// Hana is listed by the clinic, and hers is the mark of SCIM from now on.
	hana := f.made(t, "/Users", aUser("hana", `,"roles":["doctor","trainee"]`))
	time.Sleep(1500 * time.Millisecond)
	if holds() {
		t.Fatalf("it is held: %s", f.must("/scim/hold"))
	}
	got := f.scim(t, "PATCH", "/Users/"+hana, operations(`{"op":"remove","path":"roles"}`))
	if got.status != 200 {
		t.Fatal(got.text)
	}
	eventually(t, "it is held", holds)
	if told := f.must("/scim/hold"); !strings.Contains(told, "Permits were lost within 1h0m0s") {
		t.Errorf("it is told as %s", told)
	}
	if got := f.scim(t, "POST", "/Users", aUser("yan", "")); got.status != 503 {
		t.Errorf("%d %s", got.status, got.text)
	}
	f.send(t, http.MethodDelete, "/scim/hold", "")
	if got := f.scim(t, "POST", "/Users", aUser("yan", "")); got.status != 201 {
		t.Errorf("%d %s", got.status, got.text)
	}
}

// TestScimRoles has users of several roles ask for SCIM's paths: those who have no role with it get 403, and who isn't
// known 401, told as SCIM has it.
func TestScimRoles(t *testing.T) {
	access := accessFile(t, entry("okta", "provision"), entry("boss", "release"),
		entry("reader", "read", "audit", "operate"), entry("editor", "edit"), entry("nobody"))
	f := begin(t, t.TempDir(), "--scim", scimFile(t, scimMapping), "--access", access)
	made := f.as(t, "okta", "POST", "/scim/v2/Users", aUser("ann", ""))
	var told struct{ ID string }
	if err := json.Unmarshal([]byte(made.body), &told); err != nil || made.status != 201 {
		t.Fatalf("%+v", made)
	}
	for _, one := range []struct{ method, path, body, may string }{
		{"GET", "/scim/v2/Users", "", "okta"}, {"GET", "/scim/v2/Users/" + told.ID, "", "okta"},
		{"GET", "/scim/v2/Schemas", "", "okta"}, {"GET", "/scim/v2/ServiceProviderConfig", "", "okta"},
		{"GET", "/scim/v2/ResourceTypes/User", "", "okta"}, {"POST", "/scim/v2/.search", "{}", "okta"},
		{"POST", "/scim/v2/Groups", `{"displayName":"x"}`, "okta"}, {"POST", "/scim/v2/Bulk", "{}", "okta"},
		{"PUT", "/scim/v2/Users/" + told.ID, aUser("ann", ""), "okta"}, {"DELETE", "/scim/v2/Users/none", "", "okta"},
		{"PATCH", "/scim/v2/Users/" + told.ID, operations(`{"op":"add","path":"title","value":"Dr"}`), "okta"},
		{"GET", "/scim/hold", "", "boss"}, {"POST", "/scim/hold", `{"why":"x"}`, "boss"},
		{"DELETE", "/scim/hold", "", "boss"},
		{"POST", "/lines", `{"do":"person.add","name":"x"}`, "editor"}, {"GET", "/table", "", "reader"},
	} {
		for _, name := range []string{"okta", "boss", "reader", "editor", "nobody"} {
			got := f.as(t, name, one.method, one.path, one.body)
			forbidden := got.status == 403 || strings.Contains(got.body, `"status":403`)
			if forbidden == strings.Contains(one.may, name) {
				t.Errorf("%s sends %s %s, and is answered %+v", name, one.method, one.path, got)
			}
		}
	}
	got := f.scim(t, "GET", "/Users", "", "Authorization", "Bearer wrong")
	if got.status != 401 || got.body["status"] != "401" {
		t.Errorf("who isn't known is answered %d %s", got.status, got.text)
	}
}
