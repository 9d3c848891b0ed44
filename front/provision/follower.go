package provision

import (
	"encoding/json"
	"sort"
	"strings"

	"review-front/line"
	"review-front/scim"
	"review-front/source/differ"
	"review-front/source/form"
	"review-front/source/served"
	"review-front/source/values"
)

// people is the list whose names users are.
const people = "people"

// Follower knows which names and rows users are to have, and which the table has. It is for one goroutine.
type Follower struct {
	mapping *Mapping
	table   *scim.Table
	given   *differ.Given
	state   *served.State
	owned   map[string]bool
	names   map[string]string          // of users, by their ids
	ids     map[string]string          // of those who have a name, by that
	refers  map[string][]string        // whose names a user's rows have
	by      map[string]map[string]bool // the users whose rows have somebody's name
	faults  map[string]string          // why users have none, by their ids
}

// NewFollower makes one of a table, which knows of no row yet.
func NewFollower(m *Mapping, table *scim.Table) *Follower {
	f := &Follower{
		mapping: m, table: table, owned: map[string]bool{}, names: map[string]string{}, ids: map[string]string{},
		refers: map[string][]string{}, by: map[string]map[string]bool{}, faults: map[string]string{},
	}
	for _, one := range m.Source.People.Owned() {
		f.owned[one] = true
	}
	f.given = &differ.Given{
		Source: m.Source, Entities: map[string]map[string]*values.Entity{people: {}},
	}
	f.Forget()
	return f
}

// Forget has it know of no name and no row of the table.
func (f *Follower) Forget() {
	f.state = &served.State{
		Names: map[string]map[string]bool{people: {}, "actions": {}, "resources": {}}, Rows: map[served.Entity][]served.Row{},
	}
}

// subjects are how lines name the category of people.
var subjects = map[string]bool{
	"AccessSubject": true, "urn:oasis:names:tc:xacml:1.0:subject-category:access-subject": true,
}

// Seen has it know of an edit that the program accepted.
func (f *Follower) Seen(l []byte) {
	do, _ := line.Do(l)
	if do != "person.add" && do != "person.drop" && do != "attr.set" {
		return
	}
	var said struct {
		Name, Category, Entity, Attribute, Type string
		Issuer                                  *string
		Module                                  int
		Values                                  served.Values
	}
	if json.Unmarshal(l, &said) != nil {
		return
	}
	switch do {
	case "person.add":
		f.state.Names[people][said.Name] = true
	case "person.drop":
		delete(f.state.Names[people], said.Name)
	case "attr.set":
		marks := strings.HasPrefix(said.Attribute, form.MarkBegins) || strings.HasPrefix(said.Attribute, form.RowsBegins)
		if !subjects[said.Category] || !marks && !(f.owned[said.Attribute] && said.Module == f.mapping.Source.Module) {
			return
		}
		if uri := form.TypeURI(said.Type); uri != "" {
			said.Type = uri
		}
		f.set(served.Entity{List: people, Name: said.Entity}, served.Row{
			Attribute: said.Attribute, Type: said.Type, Issuer: said.Issuer, Module: said.Module, Values: said.Values,
		})
	}
}

// set keeps a row, or that there is none.
func (f *Follower) set(entity served.Entity, row served.Row) {
	f.state.Set(entity, row)
	if len(f.state.Rows[entity]) == 0 {
		delete(f.state.Rows, entity)
	}
}

// Again looks which names and rows users have now, and gives the names that may differ from what the table has, and those
// whose users have others now.
func (f *Follower) Again(ids []string) (due, renamed map[string]bool) {
	due, renamed = map[string]bool{}, map[string]bool{}
	seen := map[string]bool{}
	for len(ids) > 0 {
		id := ids[0]
		if ids = ids[1:]; seen[id] {
			continue
		}
		seen[id] = true
		before := f.names[id]
		after := f.again(id, due)
		if before != "" && after != "" && before != after {
			renamed[before] = true
		}
		if before != after {
			for one := range f.by[id] {
				ids, seen[one] = append(ids, one), false
			}
		}
		if before != "" && before != after { // somebody else may have waited for the name
			for one := range f.faults {
				if !seen[one] {
					ids = append(ids, one)
				}
			}
		}
	}
	return due, renamed
}

// again looks at one user, and gives the name.
func (f *Follower) again(id string, due map[string]bool) string {
	before := f.names[id]
	var entity *values.Entity
	var refers []string
	delete(f.faults, id)
	if r := f.table.Find("User", id); r != nil {
		v := f.table.View(f.mapping.Kinds, r, "")
		refers = f.mapping.refers(v)
		var err error
		if entity, err = f.mapping.entity(v, func(id string) string { return f.names[id] }); err != nil {
			f.faults[id] = err.Error()
		}
	}
	f.refer(id, refers)
	if entity != nil {
		if other := f.ids[entity.Name]; other != "" && other != id {
			f.faults[id], entity = "another user has the name "+entity.Name, nil
		}
	}
	if before != "" {
		due[before] = true
		delete(f.given.Entities[people], before)
		delete(f.ids, before)
		delete(f.names, id)
	}
	if entity == nil {
		return ""
	}
	due[entity.Name] = true
	f.given.Entities[people][entity.Name] = entity
	f.ids[entity.Name], f.names[id] = id, entity.Name
	return entity.Name
}

// refer keeps whose names a user's rows have.
func (f *Follower) refer(id string, to []string) {
	for _, one := range f.refers[id] {
		if delete(f.by[one], id); len(f.by[one]) == 0 {
			delete(f.by, one)
		}
	}
	delete(f.refers, id)
	for _, one := range to {
		if f.by[one] == nil {
			f.by[one] = map[string]bool{}
		}
		f.by[one][id] = true
	}
	if len(to) > 0 {
		f.refers[id] = to
	}
}

// ID is the id of the user of a name, or nothing.
func (f *Follower) ID(name string) string { return f.ids[name] }

// Faults are why users have no name or no rows, by their ids.
func (f *Follower) Faults() map[string]string { return f.faults }

// Plan says which edits make the table have what users have: of some names, or of all. First names go, then rows are
// set, then names come.
func (f *Follower) Plan(names map[string]bool) []differ.Change {
	var only map[served.Entity]bool
	if names != nil {
		only = map[served.Entity]bool{}
		for name := range names {
			only[served.Entity{List: people, Name: name}] = true
		}
	}
	var all []differ.Change
	for _, body := range differ.Bodies(differ.Compare([]*differ.Given{f.given}, f.state, only)) {
		all = append(all, body.Changes...)
	}
	return all
}

// Listed are the names that users have, in order.
func (f *Follower) Listed() []string {
	var all []string
	for name := range f.ids {
		all = append(all, name)
	}
	sort.Strings(all)
	return all
}
