package scim

import (
	"encoding/json"
	"reflect"
	"sort"
	"strings"
)

// equal says whether two clean values are one.
func equal(one, other any) bool { return reflect.DeepEqual(one, other) }

// copied is a value that may be changed.
func copied(value any) any {
	switch some := value.(type) {
	case map[string]any:
		to := make(map[string]any, len(some))
		for name, one := range some {
			to[name] = copied(one)
		}
		return to
	case []any:
		to := make([]any, len(some))
		for i, one := range some {
			to[i] = copied(one)
		}
		return to
	}
	return value
}

// Draft begins a resource of a kind, or the change of one.
func (t *Table) Draft(k *Kind, from *Resource) *Draft {
	d := &Draft{kind: k, Doc: map[string]any{}}
	id := ""
	if from != nil {
		d.Doc, _ = copied(from.Doc()).(map[string]any)
		id = from.ID
	}
	if k.Name == "Group" {
		d.Members = &Members{table: t, group: id, added: map[string]bool{}, dropped: map[string]bool{}}
	}
	return d
}

// Key is the name of the resource, in small letters.
func (d *Draft) Key() string {
	name := "userName"
	if d.kind.Name == "Group" {
		name = "displayName"
	}
	text, _ := d.Doc[name].(string)
	return strings.ToLower(text)
}

// Active says whether a user's account is in use, which it is where nothing is said.
func (d *Draft) Active() bool {
	active, is := d.Doc["active"].(bool)
	return active || !is
}

// Record is the record that makes the resource of an id, or changes one; nil where nothing is changed.
func (d *Draft) Record(id string, from *Resource) (*Record, error) {
	resource, err := json.Marshal(d.Doc)
	if err != nil {
		return nil, wrong(InvalidValue, "the resource can't be written: %v", err)
	}
	r := &Record{Do: Write, Kind: d.kind.Name, ID: id, Key: d.Key(), Active: d.Active(), Resource: resource}
	if d.Members != nil {
		r.Clear, r.Add, r.Drop = d.Members.changes()
	}
	if from == nil {
		r.Do = Create
		return r, nil
	}
	r.Of = from.Serial
	if !r.Clear && len(r.Add) == 0 && len(r.Drop) == 0 && equal(d.Doc, from.Doc()) {
		return nil, nil
	}
	return r, nil
}

// Members are those that a group is to have.
type Members struct {
	table   *Table
	group   string // its id, or nothing of a new one
	cleared bool
	added   map[string]bool
	order   []string // those that were added
	dropped map[string]bool
}

// memberIDs are those of a value of members.
func memberIDs(value any) ([]string, error) {
	var ids []string
	for _, one := range listed(value) {
		if some, is := one.(map[string]any); is {
			one = nil
			for name, part := range some {
				if strings.EqualFold(name, "value") {
					one = part
				}
			}
		}
		id, is := one.(string)
		if !is || id == "" {
			return nil, wrong(InvalidValue, "a member has the id of a user or a group at value")
		}
		ids = append(ids, id)
	}
	return ids, nil
}

// has says whether somebody is to be a member.
func (m *Members) has(id string) bool {
	return m.added[id] || !m.cleared && !m.dropped[id] && m.table.isMember(m.group, id)
}

// Clear takes all away.
func (m *Members) Clear() {
	m.cleared, m.added, m.order, m.dropped = true, map[string]bool{}, nil, map[string]bool{}
}

// Add adds some, who have to be there.
func (m *Members) Add(ids []string) error {
	for _, id := range ids {
		if m.has(id) {
			continue
		}
		if m.table.Find("", id) == nil {
			return wrong(InvalidValue, "there is no user or group with the id %.100q", id)
		}
		if id == m.group {
			return wrong(InvalidValue, "a group isn't in itself")
		}
		delete(m.dropped, id)
		m.added[id], m.order = true, append(m.order, id)
	}
	return nil
}

// Drop takes some away.
func (m *Members) Drop(ids []string) {
	for _, id := range ids {
		if m.has(id) {
			delete(m.added, id)
			m.dropped[id] = true
		}
	}
}

// those are the ids of members that a filter means.
func (m *Members) those(f Filter) []string {
	var ids []string
	if one, is := f.(compared); is && one.op == "eq" && one.path.Attr.Name == "value" {
		if id, is := one.value.(string); is && m.has(id) {
			ids = append(ids, id)
		}
		return ids
	}
	if !m.cleared {
		for _, one := range m.table.memberList(m.group) {
			if m.has(one) && f.matches(parts(m.table.member(one, ""))) {
				ids = append(ids, one)
			}
		}
	}
	for _, one := range m.order {
		if m.added[one] && f.matches(parts(m.table.member(one, ""))) {
			ids = append(ids, one)
		}
	}
	return ids
}

// mostDropped is how many members a record names that go: of more it says that all do, and who comes again.
const mostDropped = 10_000

// changes are what a record says of members: whether all go first, who comes and who goes.
func (m *Members) changes() (clear bool, add, drop []string) {
	stay := map[string]bool{}
	for _, one := range m.order {
		switch {
		case !m.added[one] || stay[one]:
		case m.table.isMember(m.group, one):
			stay[one] = true
		default:
			add = append(add, one)
			stay[one] = true
		}
	}
	if m.cleared {
		for _, one := range m.table.memberList(m.group) {
			if !stay[one] {
				drop = append(drop, one)
			}
		}
	} else {
		for one := range m.dropped {
			if m.table.isMember(m.group, one) {
				drop = append(drop, one)
			}
		}
		sort.Strings(drop)
	}
	if len(drop) <= mostDropped {
		return false, add, drop
	}
	if !m.cleared {
		return true, append(m.left(), add...), nil
	}
	add = add[:0]
	for _, one := range m.order {
		if stay[one] {
			add = append(add, one)
			delete(stay, one)
		}
	}
	return true, add, nil
}

// left are the members that stay of those that there are.
func (m *Members) left() []string {
	var left []string
	for _, one := range m.table.memberList(m.group) {
		if !m.dropped[one] {
			left = append(left, one)
		}
	}
	return left
}
