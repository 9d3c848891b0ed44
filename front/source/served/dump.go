package served

import (
	"bytes"
	"context"
	"encoding/json"
	"fmt"
)

// listOf are the lists by the URIs of their categories.
var listOf = map[string]string{
	"urn:oasis:names:tc:xacml:1.0:subject-category:access-subject": "people",
	"urn:oasis:names:tc:xacml:3.0:attribute-category:action":       "actions",
	"urn:oasis:names:tc:xacml:3.0:attribute-category:resource":     "resources",
}

// readAll reads the rows of all entities, also of such as aren't listed, out of a dump.
func (f *Front) readAll(ctx context.Context, state *State) error {
	replies, err := f.ask(ctx, [][]byte{[]byte(`{"do":"dump"}`)})
	if err != nil {
		return err
	}
	from := json.NewDecoder(bytes.NewReader(replies[0]))
	for _, want := range []json.Token{json.Delim('{'), "dump", json.Delim('[')} {
		if token, err := from.Token(); err != nil || token != want {
			return fmt.Errorf("a dump can't be read: %.200s", replies[0])
		}
	}
	state.Rows = map[Entity][]Row{}
	for from.More() {
		var line string
		if err := from.Decode(&line); err != nil {
			return fmt.Errorf("a dump can't be read: %w", err)
		}
		if err := state.add([]byte(line)); err != nil {
			return fmt.Errorf("a dump can't be read: %w", err)
		}
	}
	state.Whole = true
	return nil
}

// add adds what a line of a dump has, if it is a row.
func (s *State) add(line []byte) error {
	if !bytes.Contains(line, []byte(`"do":"attr.set"`)) {
		return nil
	}
	var told struct {
		Do                                string
		Category, Entity, Attribute, Type string
		Issuer                            *string
		Module                            int
		Values                            Values
	}
	if err := json.Unmarshal(line, &told); err != nil {
		return err
	}
	list, known := listOf[told.Category]
	if told.Do != "attr.set" || !known {
		return nil
	}
	entity := Entity{list, told.Entity}
	s.Rows[entity] = append(s.Rows[entity], Row{told.Attribute, told.Type, told.Issuer, told.Module, told.Values})
	return nil
}

// Set keeps that a row is another now, or none.
func (s *State) Set(entity Entity, row Row) {
	var rows []Row
	for _, one := range s.Rows[entity] {
		if one.Attribute != row.Attribute || one.Type != row.Type || one.Module != row.Module ||
			!alike(one.Issuer, row.Issuer) {
			rows = append(rows, one)
		}
	}
	if len(row.Values) > 0 {
		rows = append(rows, row)
	}
	s.Rows[entity] = rows
}

// alike says whether two issuers are one, or none.
func alike(one, other *string) bool {
	return one == nil && other == nil || one != nil && other != nil && *one == *other
}
