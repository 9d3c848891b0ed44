// Package differ compares what sources have with what a front has, and says which edits make the one of the other.
package differ

import (
	"bytes"
	"encoding/json"
	"fmt"
	"sort"
	"strings"

	"review-front/source/form"
	"review-front/source/served"
	"review-front/source/values"
)

// Given is a source with what was read of it, by list.
type Given struct {
	Source   *form.Source
	Entities map[string]map[string]*values.Entity
}

// What is what becomes of a name.
type What string

// What may become of one.
const (
	Added   What = "added"
	Set     What = "set"
	Left    What = "left" // another source has the name too, or it has none but rows
	Dropped What = "dropped"
)

// Change is the edits of one name for one source, which are made all together.
type Change struct {
	Entity served.Entity
	What   What
	Rows   []Row
	Edits  [][]byte
}

// Row is a row that is set, with no values where it is taken away.
type Row struct {
	Attribute, Type string // the URI of its type
	Issuer          *string
	Module          int
	Values, Before  []string
}

// Plan is what one source changes: first what goes, then what comes.
type Plan struct {
	Given   *Given
	Marked  map[string]int // how many names have the source's mark, by list
	Leaving map[string]int // how many of them it hasn't any more
	Passed  int            // names that it has and nobody lists, of lists to which it adds none
	Going   []Change
	Coming  []Change
}

// Count is how many of its names have that, of a list or of all.
func (p *Plan) Count(list string, what What) int {
	count := 0
	for _, changes := range [][]Change{p.Going, p.Coming} {
		for _, change := range changes {
			if change.What == what && (list == "" || change.Entity.List == list) {
				count++
			}
		}
	}
	return count
}

// Compare compares all sources with a state. `only`, where it isn't nil, has the names that are looked at.
func Compare(given []*Given, state *served.State, only map[served.Entity]bool) []*Plan {
	plans := make([]*Plan, len(given))
	for i, one := range given {
		plans[i] = &Plan{Given: one, Marked: map[string]int{}, Leaving: map[string]int{}}
	}
	for _, entity := range entities(given, state, only) {
		compareOne(plans, state, entity)
	}
	return plans
}

// lists are in the order in which they are compared.
var lists = map[string]int{"people": 0, "actions": 1, "resources": 2}

// entities are the names that the state or a source has, in order, or those that are looked at alone.
func entities(given []*Given, state *served.State, only map[served.Entity]bool) []served.Entity {
	all := only
	if all == nil {
		all = map[served.Entity]bool{}
		for list := range lists {
			for name := range state.Names[list] {
				all[served.Entity{List: list, Name: name}] = true
			}
			for _, one := range given {
				for name := range one.Entities[list] {
					all[served.Entity{List: list, Name: name}] = true
				}
			}
		}
		// Somebody may have dropped a name whose rows stand.
		for entity := range state.Rows {
			all[entity] = true
		}
	}
	sorted := make([]served.Entity, 0, len(all))
	for entity := range all {
		sorted = append(sorted, entity)
	}
	sort.Slice(sorted, func(i, j int) bool {
		one, other := sorted[i], sorted[j]
		return lists[one.List] < lists[other.List] || one.List == other.List && one.Name < other.Name
	})
	return sorted
}

// compareOne says what each source changes of one name. The first source that has it adds it. It is dropped by the last
// that has it no more, once no mark is left, with the rows of all that are compared: by one body, since rows of a name
// that isn't listed are found by nobody.
func compareOne(plans []*Plan, state *served.State, entity served.Entity) {
	marks := marksOf(state.Rows[entity])
	listed := state.Names[entity.List][entity.Name]
	adds, drops := -1, -1
	for i, plan := range plans {
		kind, has := plan.Given.kindOf(entity)
		if kind == nil || kind.ListedOnly {
			continue
		}
		if mark, _ := plan.Given.Source.Marks(kind); !has && marks[mark] {
			delete(marks, mark)
			drops = i
		}
		if has && adds < 0 {
			adds = i
		}
	}
	goes := listed && adds < 0 && drops >= 0 && len(marks) == 0
	var dropped *Change
	for i, plan := range plans {
		switch change := plan.one(state, entity, adds >= 0 || listed && !goes); {
		case change == nil:
		case goes:
			if dropped == nil {
				dropped = &Change{Entity: entity, What: Dropped}
			}
			dropped.Edits = append(dropped.Edits, change.Edits...)
			dropped.Rows = append(dropped.Rows, change.Rows...)
		case change.What == Left:
			plan.Going = append(plan.Going, *change)
		case !listed && i == adds:
			change.What = Added
			change.Edits = append(change.Edits, nameEdit(entity, "add"))
			plan.Coming = append(plan.Coming, *change)
		case len(change.Rows) > 0:
			plan.Coming = append(plan.Coming, *change)
		}
	}
	if dropped != nil {
		dropped.Edits = append([][]byte{nameEdit(entity, "drop")}, dropped.Edits...)
		plans[drops].Going = append(plans[drops].Going, *dropped)
	}
}

// marksOf are the marks of sources by which a name is listed.
func marksOf(rows []served.Row) map[string]bool {
	marks := map[string]bool{}
	for _, row := range rows {
		if strings.HasPrefix(row.Attribute, form.MarkBegins) {
			marks[row.Attribute] = true
		}
	}
	return marks
}

// kindOf is what the source says of a name's list, and whether it has the name.
func (g *Given) kindOf(entity served.Entity) (*form.Kind, bool) {
	return g.Source.Kind(entity.List), g.Entities[entity.List][entity.Name] != nil
}

// one says which rows a source changes of one name, which is there in the end or isn't, or gives nil.
func (p *Plan) one(state *served.State, entity served.Entity, stays bool) *Change {
	kind, has := p.Given.kindOf(entity)
	if kind == nil {
		return nil
	}
	rows := state.Rows[entity]
	marked := p.marked(kind, rows)
	if marked {
		p.Marked[entity.List]++
	}
	if has && !stays {
		p.Passed++
		has = false
	}
	if !has && !marked {
		return nil
	}
	change := &Change{Entity: entity, What: Set}
	var wanted *values.Entity
	if has {
		wanted = p.Given.Entities[entity.List][entity.Name]
	} else {
		change.What = Left
		p.Leaving[entity.List]++
	}
	change.Rows = differing(p.Given.Source, kind, wanted, rows)
	change.Edits = edits(*change)
	return change
}

// marked says whether a name has the mark of the source, or the other that it had.
func (p *Plan) marked(kind *form.Kind, rows []served.Row) bool {
	mark, other := p.Given.Source.Marks(kind)
	for _, row := range rows {
		if row.Module == p.Given.Source.Module && (row.Attribute == mark || row.Attribute == other) {
			return true
		}
	}
	return false
}

// differing are the rows of a source that are to be others: of a name that it has, or hasn't any more.
func differing(s *form.Source, kind *form.Kind, wanted *values.Entity, there []served.Row) []Row {
	var changed []Row
	for _, attribute := range kind.Owned() {
		var values []string
		if wanted != nil {
			values = wanted.Values[attribute]
		}
		changed = append(changed, differingOne(s, attribute, kind.Attributes[attribute].Type, values, there)...)
	}
	// The mark comes last, and goes last.
	var values []string
	if wanted != nil {
		values = []string{"true"}
	}
	mark, other := s.Marks(kind)
	changed = append(changed, differingOne(s, other, "boolean", nil, there)...)
	return append(changed, differingOne(s, mark, "boolean", values, there)...)
}

// differingOne are the rows of one attribute that are to be others. A row of another type is taken away.
func differingOne(s *form.Source, attribute, kind string, values []string, there []served.Row) []Row {
	var changed []Row
	var before []string
	missing := len(values) > 0
	kind = form.TypeURI(kind)
	for _, row := range there {
		if row.Attribute != attribute || row.Module != s.Module || !sameIssuer(s, row.Issuer) {
			continue
		}
		switch {
		case row.Type != kind || len(values) == 0:
			changed = append(changed, Row{attribute, row.Type, row.Issuer, row.Module, nil, row.Values})
		case same(row.Values, values):
			missing = false
		default:
			before = row.Values
		}
	}
	if missing {
		changed = append(changed, Row{attribute, kind, issuerOf(s), s.Module, values, before})
	}
	return changed
}

func issuerOf(s *form.Source) *string {
	if s.Issuer == "" {
		return nil
	}
	return &s.Issuer
}

func sameIssuer(s *form.Source, issuer *string) bool {
	return s.Issuer == "" && issuer == nil || issuer != nil && *issuer == s.Issuer && s.Issuer != ""
}

func same(one, other []string) bool {
	if len(one) != len(other) {
		return false
	}
	for i := range one {
		if one[i] != other[i] {
			return false
		}
	}
	return true
}

// commands are those that add and drop names.
var commands = map[string]string{"people": "person", "actions": "action", "resources": "resource"}

// edits are the lines of the rows of a change.
func edits(change Change) [][]byte {
	var lines [][]byte
	for _, row := range change.Rows {
		lines = append(lines, line(set{
			Do: "attr.set", Module: row.Module, Category: served.Categories[change.Entity.List], Entity: change.Entity.Name,
			Attribute: row.Attribute, Type: form.TypeWord(row.Type), Issuer: row.Issuer, Values: written(row),
		}))
	}
	return lines
}

// nameEdit is the line that adds or drops a name. It stands behind its rows where it is added, and before them where it
// is dropped: its cells are evaluated once at most, and none has half of the rows.
func nameEdit(entity served.Entity, what string) []byte {
	return line(named{commands[entity.List] + "." + what, entity.Name})
}

type named struct {
	Do   string `json:"do"`
	Name string `json:"name"`
}

type set struct {
	Do        string            `json:"do"`
	Module    int               `json:"module"`
	Category  string            `json:"category"`
	Entity    string            `json:"entity"`
	Attribute string            `json:"attribute"`
	Type      string            `json:"type"`
	Issuer    *string           `json:"issuer,omitempty"`
	Values    []json.RawMessage `json:"values"`
}

// written are the values of a row as JSON.
func written(row Row) []json.RawMessage {
	values := make([]json.RawMessage, len(row.Values))
	for i, value := range row.Values {
		if row.Type == form.TypeURI("boolean") || row.Type == form.TypeURI("integer") {
			values[i] = json.RawMessage(value)
		} else {
			values[i] = line(value)
		}
	}
	return values
}

// line is a value as JSON on one line.
func line(value any) []byte {
	var to bytes.Buffer
	into := json.NewEncoder(&to)
	into.SetEscapeHTML(false)
	if err := into.Encode(value); err != nil {
		panic(fmt.Sprintf("texts and numbers are no JSON: %v", err))
	}
	return bytes.TrimSuffix(to.Bytes(), []byte("\n"))
}
