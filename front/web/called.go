package web

import (
	"context"
	"encoding/json"
	"fmt"
	"net/http"
	"sort"
	"sync"

	"review-front/campaigns"
	"review-front/folder"
	"review-front/line"
)

// mostCalled is how many people one answer tells of.
const mostCalled = 200

// calledKeys has the keys of a query of what people are called.
var calledKeys = []key{{"person", textList}}

// calling is what people are called. It is read once, when somebody asks, since the program looks through all rows for
// those of one person, and is changed by edits from then on.
type calling struct {
	reading sync.Mutex // held while it is read
	mutex   sync.Mutex
	wanted  bool           // it is being read: edits are kept
	known   bool           // it was read
	edits   []folder.Entry // those that came while it was being read
	from    uint64         // the serial up to which edits are in it
	rows    map[string]map[calledRow]string
}

// calledRow is which row of a person has a text.
type calledRow struct {
	module       int
	issuer, kind string
}

// subjectNames are how lines name the category of people.
var subjectNames = map[string]bool{
	"AccessSubject": true, "urn:oasis:names:tc:xacml:1.0:subject-category:access-subject": true,
}

// edited changes it by edits that are on disk.
func (c *calling) edited(attribute string, edits []folder.Entry) {
	c.mutex.Lock()
	defer c.mutex.Unlock()
	switch {
	case c.known:
		c.change(attribute, edits)
	case c.wanted:
		c.edits = append(c.edits, edits...)
	}
}

// change applies edits that aren't in it.
func (c *calling) change(attribute string, edits []folder.Entry) {
	for _, edit := range edits {
		if edit.Serial > c.from {
			c.from = edit.Serial
			c.set(attribute, edit.Line)
		}
	}
}

// set takes a line, if it is of a row that says what somebody is called.
func (c *calling) set(attribute string, l []byte) {
	if line.Command(l) != "attr.set" {
		return
	}
	var said struct {
		Category, Entity, Attribute, Type string
		Issuer                            *string
		Module                            int
		Values                            []json.RawMessage
	}
	if json.Unmarshal(l, &said) != nil || said.Attribute != attribute || !subjectNames[said.Category] {
		return
	}
	row, text := calledRow{module: said.Module, kind: tailOf(said.Type)}, ""
	if said.Issuer != nil {
		row.issuer = *said.Issuer
	}
	if len(said.Values) > 0 && json.Unmarshal(said.Values[0], &text) == nil && text != "" {
		if c.rows[said.Entity] == nil {
			c.rows[said.Entity] = map[calledRow]string{}
		}
		c.rows[said.Entity][row] = text
		return
	}
	delete(c.rows[said.Entity], row)
}

// name is what somebody is called: by the first module, there by nobody in particular, that has a text.
func (c *calling) name(person string) string {
	var all []calledRow
	for row := range c.rows[person] {
		all = append(all, row)
	}
	sort.Slice(all, func(i, j int) bool {
		one, other := all[i], all[j]
		if one.module != other.module {
			return one.module < other.module
		}
		return one.issuer < other.issuer || one.issuer == other.issuer && one.kind < other.kind
	})
	if len(all) == 0 {
		return ""
	}
	return c.rows[person][all[0]]
}

// tailOf is the last word of a type's name, by which lines may name it, too.
func tailOf(kind string) string {
	for at := len(kind) - 1; at >= 0; at-- {
		if kind[at] == '#' || kind[at] == ':' {
			return kind[at+1:]
		}
	}
	return kind
}

// read takes the lines of a dump of a state, and changes them by what was edited since.
func (c *calling) read(attribute string, dump []string, serial uint64) {
	c.mutex.Lock()
	defer c.mutex.Unlock()
	c.rows = map[string]map[calledRow]string{}
	for _, written := range dump {
		c.set(attribute, []byte(written))
	}
	c.from = serial
	c.change(attribute, c.edits)
	c.edits, c.known = nil, true
}

// begin has edits be kept while it is read, and says whether it was read.
func (c *calling) begin() bool {
	c.mutex.Lock()
	defer c.mutex.Unlock()
	c.wanted = true
	return c.known
}

// forget keeps no more edits: it couldn't be read.
func (c *calling) forget() {
	c.mutex.Lock()
	defer c.mutex.Unlock()
	c.wanted, c.edits = false, nil
}

// calledOf finds what people are called.
func (s *Server) calledOf(ctx context.Context, people []string) (map[string]string, *problem) {
	c := &s.calling
	c.reading.Lock()
	defer c.reading.Unlock()
	if !c.begin() {
		var read struct{ Dump []string }
		serial, wrong := s.reported(ctx, []byte(`{"do":"dump"}`), &read)
		if wrong != nil {
			c.forget()
			return nil, wrong
		}
		c.read(s.Called, read.Dump, serial)
	}
	c.mutex.Lock()
	defer c.mutex.Unlock()
	told := map[string]string{}
	for _, person := range people {
		if name := c.name(person); name != "" {
			told[person] = name
		}
	}
	return told, nil
}

// called tells what people are called: the first text of the attribute that names them, of each who has one.
func (s *Server) called(w *answered, r *http.Request, _ map[string]string) {
	q, err := queryOf(r.URL.RawQuery, calledKeys...)
	if err == nil && len(q["person"]) > mostCalled {
		err = fmt.Errorf("at most %d people are told of at once", mostCalled)
	}
	if err != nil {
		bad(err.Error()).send(w)
		return
	}
	var lines [][]byte
	for _, person := range q["person"] {
		lines = append(lines, []byte(`{"do":"attributes","category":"AccessSubject","entity":`+quoted(person)+`}`))
	}
	if !s.mayAll(w, r, lines...) {
		return
	}
	told, wrong := s.calledOf(r.Context(), q["person"])
	if wrong != nil {
		wrong.send(w)
		return
	}
	tellJSON(w, map[string]any{"called": told})
}

// callPeople has a page of items tell what its people are called: whoever is to sign for somebody may know her name.
func (s *Server) callPeople(ctx context.Context, page *campaigns.Page) *problem {
	if s.Called == "" {
		return nil
	}
	var people []string
	for _, group := range page.Groups {
		people = append(people, group.Person)
	}
	var wrong *problem
	page.Called, wrong = s.calledOf(ctx, people)
	return wrong
}
