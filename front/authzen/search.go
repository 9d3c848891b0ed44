package authzen

import (
	"crypto/sha256"
	"encoding/base64"
	"encoding/json"
	"sort"
	"strings"

	"review-front/places"
)

// Search is a question of which one name is sought.
type Search struct {
	Question
	sought   Part
	named    string           // the type of what is sought
	others   map[string]*kind // the types among which it is one
	behind   string           // the last result of the page before
	limit    int              // how many results a page has; 0: all
	identity [sha256.Size]byte
}

// Search reads a search for a part.
func (m *Mapping) Search(n places.Node, sought Part) (Search, error) {
	q, err := m.question(n, sought)
	s := Search{Question: q, sought: sought}
	if err != nil {
		return s, err
	}
	switch sought {
	case Subject:
		s.others = m.subjects
	case Resource:
		s.others = m.resources
	}
	if sought != Action {
		at, _ := n.Child(string(sought))
		s.named, _, _ = at.Text("type")
	}
	asked := map[string]any{}
	for key, value := range n.Value.(map[string]any) {
		if key != "page" {
			asked[key] = value
		}
	}
	written, err := json.Marshal([]any{sought, asked})
	if err != nil {
		return s, n.Fault("it can't be written")
	}
	s.identity = sha256.Sum256(written)
	return s, s.page(n)
}

// page reads which page of the results is asked for.
func (s *Search) page(n places.Node) error {
	page, there := n.Child("page")
	if !there {
		return nil
	}
	if _, ok := page.Value.(map[string]any); !ok {
		return page.Fault("it isn't an object")
	}
	if at, there := page.Child("limit"); there {
		number, ok := at.Value.(json.Number)
		limit, err := number.Int64()
		if !ok || err != nil || limit < 1 || limit > 1<<30 {
			return at.Fault("it isn't a whole number of at least 1")
		}
		s.limit = int(limit)
	}
	token, there, err := page.Text("token")
	if err != nil || !there || token == "" {
		return err
	}
	read, err := base64.RawURLEncoding.DecodeString(token)
	at, _ := page.Child("token")
	if err != nil || len(read) < sha256.Size {
		return at.Fault("it is none of the front")
	}
	if string(read[:sha256.Size]) != string(s.identity[:]) {
		return at.Fault("it is of another search")
	}
	s.behind = string(read[sha256.Size:])
	return nil
}

// Sought is which part is sought.
func (s Search) Sought() Part { return s.sought }

// Cells is the line that asks for the cells of the table that permit what a plain search asks.
func (s Search) Cells() ([]byte, error) {
	line := map[string]any{"do": "cells", "decisions": []string{"Permit"}}
	for key, part := range map[string]*given{"person": &s.subject, "action": &s.action, "resource": &s.resource} {
		if part != s.part() {
			line[key] = part.name
		}
	}
	return json.Marshal(line)
}

// part is the part that is sought.
func (s *Search) part() *given {
	switch s.sought {
	case Subject:
		return &s.subject
	case Action:
		return &s.action
	}
	return &s.resource
}

// With is the question with a name for what is sought.
func (s Search) With(name string) Question {
	s.part().name = name
	return s.Question
}

// Candidates are those of some names that are of the type that is sought: they have its prefix and, where it has none,
// not that of another.
func (s Search) Candidates(names []string) []string {
	var those []string
	for _, name := range names {
		if _, is := s.id(name); is {
			those = append(those, name)
		}
	}
	return those
}

// id is the id of a name, if it is of the type that is sought.
func (s Search) id(name string) (string, bool) {
	if s.sought == Action {
		return name, true
	}
	longest := ""
	for _, other := range s.others {
		if strings.HasPrefix(name, other.prefix) && len(other.prefix) > len(longest) {
			longest = other.prefix
		}
	}
	own := s.others[s.named].prefix
	return strings.TrimPrefix(name, own), own == longest && strings.HasPrefix(name, own)
}

// Found is the response to a search, of which these names are the results: in byte order, and a page of them.
func (s Search) Found(names []string) ([]byte, error) {
	var ids []string
	for _, name := range names {
		if id, is := s.id(name); is {
			ids = append(ids, id)
		}
	}
	sort.Strings(ids)
	total := len(ids)
	if s.behind != "" {
		ids = ids[sort.Search(len(ids), func(at int) bool { return ids[at] > s.behind }):]
	}
	next := ""
	if s.limit > 0 && len(ids) > s.limit {
		ids = ids[:s.limit]
		next = base64.RawURLEncoding.EncodeToString(append(append([]byte(nil), s.identity[:]...), ids[s.limit-1]...))
	}
	results := []map[string]string{}
	for _, id := range ids {
		if s.sought == Action {
			results = append(results, map[string]string{"name": id})
		} else {
			results = append(results, map[string]string{"type": s.named, "id": id})
		}
	}
	page := map[string]any{"next_token": next, "count": len(ids), "total": total}
	return json.Marshal(map[string]any{"results": results, "page": page})
}

// sorted lists the keys of an object in byte order.
func sorted(object map[string]any) []string {
	var keys []string
	for key := range object {
		keys = append(keys, key)
	}
	sort.Strings(keys)
	return keys
}
