package main

import (
	"fmt"
	"math/rand"
	"net/http"
	"net/url"
	"sort"
	"strings"
	"testing"
)

// scimUser is a user as a model has it, and scimGroup a group. Nothing here is the front's.
type scimUser struct {
	id, name, active, title, department, mail, manager string
	roles                                              []string
}

type scimGroup struct {
	id, name string
	members  map[string]bool
}

// scimModel has the users and groups of one client, by their ids.
type scimModel struct {
	t      testing.TB
	client int
	random *rand.Rand
	front  func() *front
	users  map[string]scimUser
	groups map[string]scimGroup
	counts map[int]int
	next   int
}

// pick is one of some ids, or one that there isn't.
func (m *scimModel) pick(ids []string) string {
	if len(ids) == 0 || m.random.Intn(40) == 0 {
		return "none"
	}
	return ids[m.random.Intn(len(ids))]
}

func (m *scimModel) userIDs() []string {
	var ids []string
	for id := range m.users {
		ids = append(ids, id)
	}
	sort.Strings(ids)
	return ids
}

func (m *scimModel) groupIDs() []string {
	var ids []string
	for id := range m.groups {
		ids = append(ids, id)
	}
	sort.Strings(ids)
	return ids
}

// owner is the id of the user of a name, in whatever case.
func (m *scimModel) owner(name string) string {
	for id, user := range m.users {
		if strings.EqualFold(user.name, name) {
			return id
		}
	}
	return ""
}

// step makes one request, and sees that it is answered as the model says.
func (m *scimModel) step() {
	switch n := m.random.Intn(20); {
	case n < 3:
		m.makeUser()
	case n < 5:
		m.replaceUser()
	case n < 10:
		m.patchUser()
	case n < 11:
		m.deleteUser()
	case n < 12:
		m.makeGroup()
	case n < 16:
		m.patchGroup()
	case n == 16:
		m.deleteGroup()
	case n == 17:
		m.find()
	default:
		m.read()
	}
}

// anyUser is a user by chance.
func (m *scimModel) anyUser(id string) scimUser {
	pick := func(words ...string) string { return words[m.random.Intn(len(words))] }
	u := scimUser{
		id: id, name: fmt.Sprintf("%s%d-%d", pick("w", "W"), m.client, m.random.Intn(40)),
		active: pick("", "true", "true", "false"),
		title:  pick("", "Dr"), department: pick("", "er", "icu"), mail: pick("", "a@x", "b@x"),
	}
	for _, role := range []string{"nurse", "lead", "night"} {
		if m.random.Intn(3) == 0 {
			u.roles = append(u.roles, role)
		}
	}
	if ids := m.userIDs(); len(ids) > 0 && m.random.Intn(3) == 0 {
		u.manager = ids[m.random.Intn(len(ids))]
	}
	return u
}

// body is a user as it is sent.
func (u scimUser) body() string {
	more := ""
	if u.active != "" {
		more += `,"active":` + u.active
	}
	if u.title != "" {
		more += `,"title":"` + u.title + `"`
	}
	if u.mail != "" {
		more += `,"emails":[{"type":"work","value":"` + u.mail + `"}]`
	}
	if len(u.roles) > 0 {
		more += `,"roles":["` + strings.Join(u.roles, `","`) + `"]`
	}
	var company []string
	if u.department != "" {
		company = append(company, `"department":"`+u.department+`"`)
	}
	if u.manager != "" {
		company = append(company, `"manager":{"value":"`+u.manager+`"}`)
	}
	if len(company) > 0 {
		more += `,"` + enterpriseSchemaID + `":{` + strings.Join(company, ",") + `}`
	}
	return aUser(u.name, more)
}

// readUser is a user as it is told.
func readUser(told map[string]any) scimUser {
	text := func(of any) string {
		some, _ := of.(string)
		return some
	}
	u := scimUser{id: text(told["id"]), name: text(told["userName"]), title: text(told["title"])}
	if active, is := told["active"].(bool); is {
		u.active = fmt.Sprint(active)
	}
	company, _ := told[enterpriseSchemaID].(map[string]any)
	u.department = text(company["department"])
	if manager, is := company["manager"].(map[string]any); is {
		u.manager = text(manager["value"])
	}
	for _, one := range asList(told["roles"]) {
		u.roles = append(u.roles, text(one["value"]))
	}
	for _, one := range asList(told["emails"]) {
		if one["type"] == "work" {
			u.mail = text(one["value"])
		}
	}
	return u
}

// asList are objects of a list.
func asList(of any) (all []map[string]any) {
	some, _ := of.([]any)
	for _, one := range some {
		if object, is := one.(map[string]any); is {
			all = append(all, object)
		}
	}
	return all
}

// readGroup is a group as it is told.
func readGroup(told map[string]any) scimGroup {
	g := scimGroup{members: map[string]bool{}}
	g.id, _ = told["id"].(string)
	g.name, _ = told["displayName"].(string)
	for _, one := range asList(told["members"]) {
		id, _ := one["value"].(string)
		g.members[id] = true
	}
	return g
}

// send sends a request. `done` is false where nobody knows what became of it.
func (m *scimModel) send(method, path, body string) (got scimAnswer, done bool) {
	got, err := m.front().tryScim(method, path, body)
	if err != nil {
		got.status = 0
		eventually(m.t, "the front answers", func() bool {
			answer, err := http.Get(m.front().url("/readyz"))
			if err != nil {
				return false
			}
			answer.Body.Close()
			return answer.StatusCode == http.StatusOK
		})
	}
	m.counts[got.status]++
	return got, err == nil && got.status != http.StatusServiceUnavailable
}

// again asks for something until somebody answers.
func (m *scimModel) again(path string) (got scimAnswer) {
	eventually(m.t, "the front answers", func() bool {
		var done bool
		got, done = m.send("GET", path, "")
		return done
	})
	return got
}

// settled keeps a user as it is: as it was, or as it was to be, where that isn't known.
func (m *scimModel) settled(what string, before, after scimUser, known bool) {
	id := after.id
	if known {
		m.users[id] = after
		return
	}
	got := m.again("/Users/" + id)
	told := readUser(got.body)
	switch {
	case got.status == http.StatusOK && fmt.Sprint(told) == fmt.Sprint(after):
		m.users[id] = after
	case got.status != http.StatusOK || fmt.Sprint(told) != fmt.Sprint(before):
		m.t.Errorf("%s: the user is %d %v, and was %v, and was to be %v", what, got.status, told, before, after)
	}
}

// want sees that a request was answered by a status.
func (m *scimModel) want(what string, got scimAnswer, status int) bool {
	if got.status != status {
		m.t.Errorf("%s is answered %d %s, and not %d", what, got.status, got.text, status)
	}
	return got.status == status && status < 300
}

func (m *scimModel) makeUser() {
	u := m.anyUser("")
	got, done := m.send("POST", "/Users", u.body())
	if !done {
		list := m.again(`/Users?filter=` + url.QueryEscape(`userName eq "`+u.name+`"`))
		for _, one := range asList(list.body["Resources"]) {
			if told := readUser(one); m.users[told.id].id == "" {
				u.id = told.id
				m.settled(u.body(), scimUser{}, u, false)
			}
		}
		return
	}
	status := http.StatusCreated
	if m.owner(u.name) != "" {
		status = http.StatusConflict
	}
	if m.want(u.body(), got, status) {
		u.id, _ = got.body["id"].(string)
		if told := readUser(got.body); fmt.Sprint(told) != fmt.Sprint(u) {
			m.t.Errorf("%s is made as %v", u.body(), told)
		}
		m.users[u.id] = u
	}
}

// change changes a user by a request.
func (m *scimModel) change(method, id, body string, after scimUser) {
	got, done := m.send(method, "/Users/"+id, body)
	before, there := m.users[id]
	status := http.StatusOK
	switch other := m.owner(after.name); {
	case !there:
		status = http.StatusNotFound
	case other != "" && other != id:
		status = http.StatusConflict
	}
	switch {
	case !done && status == http.StatusOK:
		m.settled(body, before, after, false)
	case done && m.want(method+" "+body, got, status):
		m.settled(body, before, after, true)
		if told := readUser(got.body); fmt.Sprint(told) != fmt.Sprint(after) {
			m.t.Errorf("%s makes %v of %v, and not %v", body, told, before, after)
		}
	}
}

func (m *scimModel) replaceUser() {
	id := m.pick(m.userIDs())
	u := m.anyUser(id)
	m.change("PUT", id, u.body(), u)
}

func (m *scimModel) patchUser() {
	id := m.pick(m.userIDs())
	u, other := m.users[id], m.anyUser(id)
	u.id = id
	var all []string
	for i := 0; i <= m.random.Intn(3); i++ {
		all = append(all, m.operation(&u, other))
	}
	m.change("PATCH", id, operations(all...), u)
}

// operation is one by chance, which the model does, too.
func (m *scimModel) operation(u *scimUser, other scimUser) string {
	switch m.random.Intn(9) {
	case 0:
		u.name = other.name
		return `{"op":"Replace","path":"userName","value":"` + u.name + `"}`
	case 1:
		u.active = []string{"true", "false"}[m.random.Intn(2)]
		written := []string{u.active, `"` + strings.Title(u.active) + `"`}[m.random.Intn(2)]
		return `{"op":"replace","value":{"active":` + written + `}}`
	case 2:
		u.title = ""
		return `{"op":"remove","path":"title"}`
	case 3:
		u.title, u.department = "Prof", "ward"
		return `{"op":"add","value":{"title":"Prof","` + enterpriseSchemaID + `:department":"ward"}}`
	case 4:
		u.roles = append([]string(nil), other.roles...)
		if len(u.roles) == 0 {
			return `{"op":"remove","path":"roles"}`
		}
		return `{"op":"replace","path":"roles","value":["` + strings.Join(u.roles, `","`) + `"]}`
	case 5:
		role := []string{"nurse", "lead", "night", "day"}[m.random.Intn(4)]
		for _, one := range u.roles {
			if one == role {
				return `{"op":"add","path":"roles","value":[{"value":"` + role + `"}]}`
			}
		}
		u.roles = append(append([]string(nil), u.roles...), role)
		return `{"op":"add","path":"roles","value":[{"value":"` + role + `"}]}`
	case 6:
		role := []string{"nurse", "lead", "night", "day"}[m.random.Intn(4)]
		var left []string
		for _, one := range u.roles {
			if one != role {
				left = append(left, one)
			}
		}
		u.roles = left
		return `{"op":"remove","path":"roles[value eq \"` + strings.ToUpper(role) + `\"]"}`
	case 7:
		u.mail = "c@x"
		return `{"op":"add","path":"emails[type eq \"work\"].value","value":"c@x"}`
	}
	u.manager = other.manager
	if u.manager == "" {
		return `{"op":"remove","path":"` + enterpriseSchemaID + `:manager"}`
	}
	return `{"op":"replace","path":"` + enterpriseSchemaID + `:manager","value":"` + u.manager + `"}`
}

func (m *scimModel) deleteUser() {
	id := m.pick(m.userIDs())
	got, done := m.send("DELETE", "/Users/"+id, "")
	if !done {
		got = m.again("/Users/" + id)
		if got.status == http.StatusOK {
			return
		}
	} else if _, there := m.users[id]; there != (got.status == http.StatusNoContent) {
		m.t.Errorf("to take %s away is answered %d", id, got.status)
	}
	delete(m.users, id)
	m.leaves(id)
}

// leaves takes somebody out of all groups.
func (m *scimModel) leaves(id string) {
	for _, group := range m.groups {
		delete(group.members, id)
	}
}

func (m *scimModel) makeGroup() {
	if len(m.groups) > 12 {
		m.deleteGroup()
		return
	}
	m.next++
	name := fmt.Sprintf("g%d-%d", m.client, m.next)
	got, done := m.send("POST", "/Groups", `{"displayName":"`+name+`"}`)
	if !done {
		list := m.again(`/Groups?filter=` + url.QueryEscape(`displayName eq "`+name+`"`))
		for _, one := range asList(list.body["Resources"]) {
			g := readGroup(one)
			m.groups[g.id] = g
		}
		return
	}
	if m.want(name, got, http.StatusCreated) {
		g := readGroup(got.body)
		m.groups[g.id] = g
	}
}

func (m *scimModel) patchGroup() {
	id := m.pick(m.groupIDs())
	before, there := m.groups[id]
	after := scimGroup{id: id, name: before.name, members: map[string]bool{}}
	for one := range before.members {
		after.members[one] = true
	}
	body := m.groupOperation(&after)
	got, done := m.send("PATCH", "/Groups/"+id, body)
	if done {
		status := http.StatusNoContent
		if !there {
			status = http.StatusNotFound
		}
		if m.want(body, got, status) {
			m.groups[id] = after
		}
		return
	}
	if !there {
		return
	}
	switch told := readGroup(m.again("/Groups/" + id).body); fmt.Sprint(told) {
	case fmt.Sprint(after):
		m.groups[id] = after
	case fmt.Sprint(before):
	default:
		m.t.Errorf("%s: the group is %v, and was %v, and was to be %v", body, told, before, after)
	}
}

// groupOperation changes a group.
func (m *scimModel) groupOperation(g *scimGroup) string {
	ids := append(m.userIDs(), m.groupIDs()...)
	var some []string
	for i := m.random.Intn(5); i > 0 && len(ids) > 0; i-- {
		if id := ids[m.random.Intn(len(ids))]; id != g.id {
			some = append(some, id)
		}
	}
	values := `[]`
	if len(some) > 0 {
		values = `[{"value":"` + strings.Join(some, `"},{"value":"`) + `"}]`
	}
	switch m.random.Intn(5) {
	case 0:
		m.next++
		g.name = fmt.Sprintf("g%d-%d", m.client, m.next)
		return operations(`{"op":"replace","value":{"displayName":"` + g.name + `"}}`)
	case 1:
		g.members = map[string]bool{}
		for _, id := range some {
			g.members[id] = true
		}
		return operations(`{"op":"replace","path":"members","value":` + values + `}`)
	case 2:
		for _, id := range some {
			delete(g.members, id)
		}
		return operations(`{"op":"Remove","path":"members","value":` + values + `}`)
	case 3:
		var all []string
		for _, id := range append(some, "none") {
			delete(g.members, id)
			all = append(all, `{"op":"remove","path":"members[value eq \"`+id+`\"]"}`)
		}
		return operations(all...)
	}
	for _, id := range some {
		g.members[id] = true
	}
	return operations(`{"op":"add","path":"members","value":` + values + `}`)
}

func (m *scimModel) deleteGroup() {
	id := m.pick(m.groupIDs())
	got, done := m.send("DELETE", "/Groups/"+id, "")
	if !done {
		if got = m.again("/Groups/" + id); got.status == http.StatusOK {
			return
		}
	}
	delete(m.groups, id)
	m.leaves(id)
}
