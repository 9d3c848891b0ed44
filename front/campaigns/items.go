package campaigns

import (
	"encoding/json"
	"fmt"
	"io"
	"strings"
)

// Asker asks the program at one place among its edits.
type Asker interface {
	// Ask gives the replies to lines, of which each is short.
	Ask(lines ...[]byte) ([][]byte, error)
	// Tell writes the reply to a line, which may be as long as the table, as it comes.
	Tell(line []byte, to io.Writer) error
}

// Items are the cells of a campaign, by their numbers, in the order of the table as it was when it was opened.
type Items struct {
	Serial    uint64   // that of the record
	People    []string // each name as it stands between the quotes of JSON
	Actions   []string
	Resources []string
	Reviewers []string // names as they are
	Answers   []*Answer
	Cells     []Numbered
	places    [3]map[string]uint32
	begins    []uint32 // of each person the number of her first item; and how many there are
}

// Numbered is an item: its names, its answer when the campaign was opened, and its reviewer, by their numbers.
type Numbered struct{ Person, Action, Resource, Answer, Reviewer uint32 }

// lists are the lists of names, with the category of each.
var lists = [3]struct{ list, category string }{
	{"people", "AccessSubject"}, {"actions", "Action"}, {"resources", "Resource"},
}

// making is what is known while items are looked for.
type making struct {
	*Definition
	ask    Asker
	names  [3][]string // of each list all names, as they are
	raw    [3][]string // and as they stand between the quotes of JSON
	in     [3][]bool   // whether the scope has one
	values [3][]map[string][]string
	by     map[string]uint32
	items  *Items
	index  map[string]uint32 // of answers
}

// Make finds the items of a campaign, as the program answers now.
func Make(d *Definition, ask Asker) (*Items, error) {
	m := &making{
		Definition: d, ask: ask, items: &Items{}, by: map[string]uint32{}, index: map[string]uint32{},
	}
	parts := [3]Part{d.Scope.People, d.Scope.Actions, d.Scope.Resources}
	for i := range lists {
		if err := m.list(i, parts[i]); err != nil {
			return nil, err
		}
	}
	decisions, err := json.Marshal(d.Scope.Decisions)
	if err != nil {
		return nil, err
	}
	m.items.People, m.items.Actions, m.items.Resources = m.raw[0], m.raw[1], m.raw[2]
	m.items.index()
	told := &cellsTold{call: m.cell}
	if err := ask.Tell([]byte(`{"do":"cells","decisions":`+string(decisions)+`}`), told); err != nil {
		return nil, err
	}
	if !told.ended {
		return nil, fmt.Errorf("the cells are told as %.200s", told.held)
	}
	m.items.begin()
	return m.items, nil
}

// list reads a list of names, and which of them the scope has.
func (m *making) list(which int, part Part) error {
	replies, err := m.ask.Ask([]byte(`{"do":"names","list":"` + lists[which].list + `"}`))
	if err != nil {
		return err
	}
	var said struct{ Names []json.RawMessage }
	if err := json.Unmarshal(replies[0], &said); err != nil || said.Names == nil {
		return fmt.Errorf("names are told as %.200s", replies[0])
	}
	for _, written := range said.Names {
		var name string
		if err := json.Unmarshal(written, &name); err != nil {
			return err
		}
		m.names[which] = append(m.names[which], name)
		m.raw[which] = append(m.raw[which], string(written[1:len(written)-1]))
	}
	if err := m.attributes(which, part); err != nil {
		return err
	}
	for i, name := range m.names[which] {
		m.in[which] = append(m.in[which], has(part.Names, name) && m.holds(which, i, part.Where))
	}
	return nil
}

// attributes reads the attributes of the names of a list, if something asks for them.
func (m *making) attributes(which int, part Part) error {
	wanted := len(part.Where) > 0
	for _, one := range m.Reviewers {
		wanted = wanted || which == 0 && one.Person != "" || which == 2 && one.Resource != ""
	}
	if !wanted || len(m.raw[which]) == 0 {
		return nil
	}
	var asked [][]byte
	for _, name := range m.raw[which] {
		asked = append(asked, []byte(`{"do":"attributes","category":"`+lists[which].category+`","entity":"`+name+`"}`))
	}
	replies, err := m.ask.Ask(asked...)
	if err != nil {
		return err
	}
	for _, reply := range replies {
		var said struct {
			Attributes []struct {
				Attribute string
				Values    []json.RawMessage
			}
		}
		if err := json.Unmarshal(reply, &said); err != nil || said.Attributes == nil {
			return fmt.Errorf("attributes are told as %.200s", reply)
		}
		values := map[string][]string{}
		for _, row := range said.Attributes {
			for _, value := range row.Values {
				values[row.Attribute] = append(values[row.Attribute], plain(value))
			}
		}
		m.values[which] = append(m.values[which], values)
	}
	return nil
}

// plain is a value as text: a text without its quotes, anything else as it is written.
func plain(value json.RawMessage) string {
	var text string
	if json.Unmarshal(value, &text) == nil {
		return text
	}
	return string(value)
}

// holds says whether what is asked of a name's attributes is so.
func (m *making) holds(which, name int, all []Where) bool {
	for _, where := range all {
		found := false
		for _, value := range m.values[which][name][where.Attribute] {
			for _, wanted := range where.Values {
				found = found || value == wanted
			}
		}
		if !found {
			return false
		}
	}
	return true
}

// cell takes a cell that the program told, if the scope has it.
func (m *making) cell(cell Cell, answer *Answer) error {
	at, ok := m.items.numbers(cell)
	if !ok {
		return fmt.Errorf("a cell is of nobody who is listed: %v", cell)
	}
	if !m.in[0][at.Person] || !m.in[1][at.Action] || !m.in[2][at.Resource] {
		return nil
	}
	text := answer.text()
	which, there := m.index[text]
	if !there {
		which = uint32(len(m.items.Answers))
		m.index[text] = which
		m.items.Answers = append(m.items.Answers, answer.copied())
	}
	at.Answer = which
	at.Reviewer = m.named(m.reviewer(int(at.Person), int(at.Action), int(at.Resource)))
	m.items.Cells = append(m.items.Cells, at)
	return nil
}

// reviewer is who reviews a cell: the first that is named and may sign it, or else the first that is named.
func (m *making) reviewer(person, action, resource int) string {
	first := ""
	for _, one := range m.Reviewers {
		var who []string
		switch {
		case one.Person != "":
			who = m.values[0][person][one.Person]
		case one.Resource != "":
			who = m.values[2][resource][one.Resource]
		case has(one.People, m.names[0][person]) && has(one.Actions, m.names[1][action]) &&
			has(one.Resources, m.names[2][resource]):
			who = []string{one.Name}
		}
		if len(who) == 0 {
			continue
		}
		if m.Self || who[0] != m.names[0][person] {
			return who[0]
		}
		if first == "" {
			first = who[0]
		}
	}
	return first
}

// named is the number of a reviewer.
func (m *making) named(name string) uint32 {
	at, there := m.by[name]
	if !there {
		at = uint32(len(m.items.Reviewers))
		m.by[name], m.items.Reviewers = at, append(m.items.Reviewers, name)
	}
	return at
}

// index has names be found.
func (i *Items) index() {
	for which, names := range [3][]string{i.People, i.Actions, i.Resources} {
		i.places[which] = make(map[string]uint32, len(names))
		for at, name := range names {
			i.places[which][name] = uint32(at)
		}
	}
}

// begin finds where each person's items begin.
func (i *Items) begin() {
	i.begins = make([]uint32, len(i.People)+1)
	for _, cell := range i.Cells {
		i.begins[cell.Person+1]++
	}
	for at := range i.People {
		i.begins[at+1] += i.begins[at]
	}
}

// numbers are those of a cell's names.
func (i *Items) numbers(cell Cell) (at Numbered, ok bool) {
	person, is := i.places[0][cell.Person]
	action, was := i.places[1][cell.Action]
	resource, known := i.places[2][cell.Resource]
	return Numbered{Person: person, Action: action, Resource: resource}, is && was && known
}

// Find is the number of the item of a cell.
func (i *Items) Find(cell Cell) (uint32, bool) {
	at, ok := i.numbers(cell)
	if !ok {
		return 0, false
	}
	low, high := i.begins[at.Person], i.begins[at.Person+1]
	for low < high {
		middle := (low + high) / 2
		one := i.Cells[middle]
		if one.Action < at.Action || one.Action == at.Action && one.Resource < at.Resource {
			low = middle + 1
		} else {
			high = middle
		}
	}
	if low == i.begins[at.Person+1] {
		return 0, false
	}
	one := i.Cells[low]
	return low, one.Action == at.Action && one.Resource == at.Resource
}

// Cell is the cell of an item.
func (i *Items) Cell(number uint32) Cell {
	at := i.Cells[number]
	return Cell{Person: i.People[at.Person], Action: i.Actions[at.Action], Resource: i.Resources[at.Resource]}
}

// copied is an answer that stands by itself.
func (a *Answer) copied() *Answer {
	of := func(b json.RawMessage) json.RawMessage { return append(json.RawMessage(nil), b...) }
	return &Answer{
		Advice: of(a.Advice), Decision: of(a.Decision), Obligations: of(a.Obligations), Status: of(a.Status), Why: of(a.Why),
	}
}

// Plain is a name as it is, of one that is written as between the quotes of JSON.
func Plain(written string) string {
	if !strings.Contains(written, `\`) {
		return written
	}
	return plain(json.RawMessage(`"` + written + `"`))
}
