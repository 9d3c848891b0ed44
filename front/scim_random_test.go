package main

import (
	"encoding/json"
	"fmt"
	"math/rand"
	"net/http"
	"net/url"
	"sort"
	"strings"
	"sync"
	"testing"
	"time"
)

// find looks for a user by the name.
func (m *scimModel) find() {
	name := strings.ToUpper(m.anyUser("").name)
	got, done := m.send("GET", `/Users?filter=`+url.QueryEscape(`userName eq "`+name+`" and meta.created pr`), "")
	if !done {
		return
	}
	all := asList(got.body["Resources"])
	switch id := m.owner(name); {
	case id == "" && len(all) != 0, id != "" && (len(all) != 1 || all[0]["id"] != id):
		m.t.Errorf("of the name %s there is told %s", name, got.text)
	}
}

// read reads a user, or a group.
func (m *scimModel) read() {
	if id := m.pick(m.userIDs()); m.random.Intn(2) == 0 {
		if got, done := m.send("GET", "/Users/"+id, ""); done {
			m.sameUser(id, got)
		}
		return
	}
	id := m.pick(m.groupIDs())
	if got, done := m.send("GET", "/Groups/"+id, ""); done {
		m.sameGroup(id, got)
	}
}

// sameUser sees that a user is told as the model has it, also in which groups.
func (m *scimModel) sameUser(id string, got scimAnswer) {
	want, there := m.users[id]
	if !there {
		if got.status != http.StatusNotFound {
			m.t.Errorf("the user %s isn't there, and is told as %d %s", id, got.status, got.text)
		}
		return
	}
	if told := readUser(got.body); fmt.Sprint(told) != fmt.Sprint(want) {
		m.t.Errorf("the user is told as %d %s, and is %v", got.status, got.text, want)
	}
	var names, direct []string
	for _, one := range asList(got.body["groups"]) {
		name, _ := one["display"].(string)
		names = append(names, name)
		if one["type"] == "direct" {
			direct = append(direct, name)
		}
	}
	sort.Strings(names)
	sort.Strings(direct)
	all, first := m.groupsOf(id)
	if fmt.Sprint(names) != fmt.Sprint(all) || fmt.Sprint(direct) != fmt.Sprint(first) {
		m.t.Errorf("the user %s is in %v and %v, and not in %v and %v", id, direct, names, first, all)
	}
}

func (m *scimModel) sameGroup(id string, got scimAnswer) {
	want, there := m.groups[id]
	told := readGroup(got.body)
	if there && fmt.Sprint(told) != fmt.Sprint(want) || there != (got.status == http.StatusOK) {
		m.t.Errorf("the group %s is told as %d %s, and is %v", id, got.status, got.text, want)
	}
}

// groupsOf are the names of the groups that somebody is in, and of those that have him as a member.
func (m *scimModel) groupsOf(id string) (all, direct []string) {
	in := map[string]bool{id: true}
	for grown := true; grown; {
		grown = false
		for _, group := range m.groups {
			for member := range group.members {
				if in[member] && !in[group.id] {
					in[group.id], grown = true, true
				}
			}
		}
	}
	for _, group := range m.groups {
		if in[group.id] && group.id != id {
			all = append(all, group.name)
		}
		if group.members[id] {
			direct = append(direct, group.name)
		}
	}
	sort.Strings(all)
	sort.Strings(direct)
	return all, direct
}

// rows are the names and rows that the model maps to.
func (m *scimModel) rows(to map[string]string) {
	listed := func(values []string) string {
		values = append([]string(nil), values...)
		sort.Strings(values)
		return strings.Join(values, " ")
	}
	for id, user := range m.users {
		if user.active == "false" {
			continue
		}
		name := strings.ToLower(user.name)
		to[name] = "listed"
		all, direct := m.groupsOf(id)
		manager := m.users[user.manager]
		if manager.active == "false" {
			manager.name = ""
		}
		for attribute, values := range map[string]string{
			"department": user.department, "role": listed(user.roles), "mail": user.mail, "group": listed(all),
			"direct": listed(direct), "manager": strings.ToLower(manager.name),
		} {
			if values != "" {
				to[name+" "+attribute] = values
			}
		}
	}
}

// tableOf are the names and rows that the table has, of which none may stand without its name.
func tableOf(t testing.TB, f *front) map[string]string {
	t.Helper()
	var dump struct{ Dump []string }
	if err := json.Unmarshal([]byte(f.must("/dump")), &dump); err != nil {
		t.Fatal(err)
	}
	table := map[string]string{}
	for _, l := range dump.Dump {
		var one struct {
			Do, Name, Entity, Attribute string
			Values                      []any
		}
		if err := json.Unmarshal([]byte(l), &one); err != nil {
			t.Fatal(err)
		}
		switch {
		case one.Do == "person.add":
			table[one.Name] = "listed"
		case one.Do == "attr.set" && one.Attribute != "urn:review:source:scim":
			table[one.Entity+" "+one.Attribute] = strings.Trim(fmt.Sprint(one.Values), "[]")
		}
	}
	return table
}

// sameAll sees that all is told as models have it, and that the table comes to be that of their rows.
func sameAll(t *testing.T, f *front, models []*scimModel) {
	t.Helper()
	want := map[string]string{}
	users, groups := 0, 0
	for _, m := range models {
		for id := range m.users {
			m.sameUser(id, f.scim(t, "GET", "/Users/"+id, ""))
		}
		for id := range m.groups {
			m.sameGroup(id, f.scim(t, "GET", "/Groups/"+id, ""))
		}
		m.rows(want)
		users, groups = users+len(m.users), groups+len(m.groups)
	}
	for path, count := range map[string]int{"/Users": users, "/Groups": groups} {
		if got := f.scim(t, "GET", path+"?count=0", ""); got.body["totalResults"] != float64(count) {
			t.Errorf("%s has %v, and the model %d", path, got.body["totalResults"], count)
		}
	}
	var got map[string]string
	eventually(t, "the table is that of the model", func() bool {
		got = tableOf(t, f)
		return fmt.Sprint(got) == fmt.Sprint(want)
	})
}

// TestScimModel makes random requests by several clients while the front and the program are killed
// (FRONT_SCIM_REQUESTS says how many): what is read is what was written, of a request without an answer all or nothing,
// and the table is that of the rows that a model maps to.
func TestScimModel(t *testing.T) {
	const clients = 4
	requests, phases := number("FRONT_SCIM_REQUESTS", 1000), number("FRONT_SCIM_PHASES", 4)
	path := t.TempDir()
	words := []string{"--scim", scimFile(t, scimMapping), "--snapshot-every", "400"}
	var mutex sync.Mutex
	f := begin(t, path, words...)
	now := func() *front {
		mutex.Lock()
		defer mutex.Unlock()
		return f
	}
	var models []*scimModel
	seed := number("FRONT_SEED", 5)
	for client := 0; client < clients; client++ {
		models = append(models, &scimModel{
			t: t, client: client, random: rand.New(rand.NewSource(int64(seed*100 + client))), front: now,
			users: map[string]scimUser{}, groups: map[string]scimGroup{}, counts: map[int]int{},
		})
	}
	random := rand.New(rand.NewSource(int64(seed)))
	kills := 0
	for phase := 0; phase < phases && !t.Failed(); phase++ {
		var all sync.WaitGroup
		for _, m := range models {
			all.Add(1)
			go func(m *scimModel) {
				defer all.Done()
				for i := 0; i < requests/phases/clients && !t.Failed(); i++ {
					m.step()
				}
			}(m)
		}
		done := make(chan struct{})
		go func() {
			all.Wait()
			close(done)
		}()
		for killing := true; killing; {
			select {
			case <-done:
				killing = false
			case <-time.After(time.Duration(50+random.Intn(400)) * time.Millisecond):
				kills++
				if old := now(); random.Intn(2) == 0 {
					old.killProgram()
				} else {
					old.kill()
					other := begin(t, path, words...)
					mutex.Lock()
					f = other
					mutex.Unlock()
				}
			}
		}
		now().await()
		sameAll(t, f, models)
	}
	f.stop()
	if status, said, _ := saying("verify", "--journal", path); status != 0 {
		t.Errorf("verify says %s", said)
	}
	f = begin(t, path, words...)
	sameAll(t, f, models)
	counts := map[int]int{}
	for _, m := range models {
		for status, count := range m.counts {
			counts[status] += count
		}
	}
	t.Logf("%d kills; requests were answered %v", kills, counts)
}
