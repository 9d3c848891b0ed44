// Package provision makes names and rows of the users that SCIM keeps, and says which edits make the table have them.
package provision

import (
	"bytes"
	"encoding/json"
	"errors"
	"fmt"
	"io"
	"os"
	"sort"
	"strings"

	"review-front/scim"
	"review-front/source/form"
	"review-front/source/values"
)

// Mapping says which name and which rows a user has.
type Mapping struct {
	Source *form.Source
	Kinds  *scim.Kinds
	fields map[string]field
}

// field is where a field's values come from; named, that they are ids of users whose names are meant.
type field struct {
	expression *scim.Expression
	named      bool
}

// file is what a file says.
type file struct {
	Source string `json:"source"`
	Module int    `json:"module"`
	Issuer string `json:"issuer"`
	People struct {
		Name       form.Name            `json:"name"`
		Attributes map[string]attribute `json:"attributes"`
		Gone       []string             `json:"gone"`
	} `json:"people"`
	Extensions []*scim.Schema `json:"extensions"`
}

// attribute is where the values of an attribute come from, and how they are written.
type attribute struct {
	From  string `json:"from"`
	Type  string `json:"type"`
	List  string `json:"list"`
	Form  string `json:"form"`
	Case  string `json:"case"`
	Named bool   `json:"named"`
}

// UnmarshalJSON takes a text for where they come from alone.
func (a *attribute) UnmarshalJSON(written []byte) error {
	if json.Unmarshal(written, &a.From) == nil {
		return nil
	}
	type plain attribute
	return strict(written, (*plain)(a))
}

// strict reads JSON that has no key besides those that are known.
func strict(written []byte, to any) error {
	from := json.NewDecoder(bytes.NewReader(written))
	from.DisallowUnknownFields()
	if err := from.Decode(to); err != nil {
		return err
	}
	if _, err := from.Token(); err != io.EOF {
		return errors.New("something stands behind the object")
	}
	return nil
}

// Read reads a file.
func Read(path string) (*Mapping, error) {
	written, err := os.ReadFile(path)
	if err != nil {
		return nil, err
	}
	m, err := Parse(written)
	if err != nil {
		return nil, fmt.Errorf("%s: %w", path, err)
	}
	return m, nil
}

// Parse reads what a file says.
func Parse(written []byte) (*Mapping, error) {
	var said file
	if err := strict(written, &said); err != nil {
		return nil, err
	}
	for _, one := range said.Extensions {
		if err := wrongSchema(one); err != nil {
			return nil, err
		}
	}
	m := &Mapping{Kinds: scim.NewKinds(said.Extensions...), fields: map[string]field{}}
	people := &form.Kind{Name: said.People.Name, Attributes: map[string]form.Attribute{}, Gone: said.People.Gone}
	if err := m.field(people.Name.From, field{}, people.Name.From); err != nil {
		return nil, fmt.Errorf("name: %w", err)
	}
	for name, one := range said.People.Attributes {
		key := one.From
		if one.Named {
			key = "names of " + key
		}
		if err := m.field(key, field{named: one.Named}, one.From); err != nil {
			return nil, fmt.Errorf("%q: %w", name, err)
		}
		people.Attributes[name] = form.Attribute{
			From: key, Type: one.Type, List: one.List, Form: one.Form, Case: one.Case, Optional: true,
		}
	}
	var err error
	m.Source, err = form.Given(said.Source, said.Module, said.Issuer, people)
	return m, err
}

// field adds a field.
func (m *Mapping) field(key string, of field, from string) error {
	if from == "" {
		return errors.New(`"from" says what of a user it is`)
	}
	var err error
	of.expression, err = scim.ParseExpression(m.Kinds.User, from)
	m.fields[key] = of
	return err
}

// wrongSchema says what is wrong with a schema of a file, and fills in what needn't be said.
func wrongSchema(s *scim.Schema) error {
	if s == nil || !strings.HasPrefix(strings.ToLower(s.ID), "urn:") || len(s.Attributes) == 0 {
		return errors.New(`an extension has an "id" that begins with urn:, and "attributes"`)
	}
	if s.Name == "" {
		s.Name = s.ID
	}
	if err := wrongAttributes(s.Attributes, true); err != nil {
		return fmt.Errorf("the extension %s: %w", s.ID, err)
	}
	return nil
}

var types = map[string]bool{
	scim.TypeString: true, scim.TypeBoolean: true, scim.TypeDecimal: true, scim.TypeInteger: true, scim.TypeDateTime: true,
	scim.TypeBinary: true, scim.TypeReference: true, scim.TypeComplex: true,
}

// wrongAttributes says what is wrong with some attributes.
func wrongAttributes(all []*scim.Attribute, outer bool) error {
	seen := map[string]bool{}
	for _, one := range all {
		if one.Type == "" {
			one.Type = scim.TypeString
		}
		name := strings.ToLower(one.Name)
		switch {
		case name == "" || seen[name] || strings.ContainsAny(name, ` ."[]():,`):
			return fmt.Errorf("the attribute %q has no name of its own", one.Name)
		case !types[one.Type] || one.Type == scim.TypeComplex && !outer:
			return fmt.Errorf("the attribute %q has the type %q", one.Name, one.Type)
		case (one.Type == scim.TypeComplex) != (len(one.Sub) > 0):
			return fmt.Errorf(`the attribute %q: "subAttributes" are those of the type complex`, one.Name)
		}
		seen[name] = true
		for _, key := range []struct {
			to *string
			is string
		}{{&one.Mutability, "readWrite"}, {&one.Returned, "default"}, {&one.Uniqueness, "none"}} {
			if *key.to == "" {
				*key.to = key.is
			}
		}
		if err := wrongAttributes(one.Sub, false); err != nil {
			return err
		}
	}
	return nil
}

// entity is the name and rows of a user, or nil where the account isn't in use. `names` gives the name of the user of
// an id, or nothing.
func (m *Mapping) entity(v scim.View, names func(id string) string) (*values.Entity, error) {
	if !v.Active {
		return nil, nil
	}
	fields := values.Fields{}
	for key, of := range m.fields {
		texts := of.expression.Values(v)
		if of.named {
			var named []string
			for _, id := range texts {
				if name := names(id); name != "" {
					named = append(named, name)
				}
			}
			texts = named
		}
		fields[key] = texts
	}
	return values.Of(m.Source.People, fields)
}

// Named says whether ids of other users stand for their names.
func (m *Mapping) Named() bool {
	for _, of := range m.fields {
		if of.named {
			return true
		}
	}
	return false
}

// refers are the ids of users whose names are meant.
func (m *Mapping) refers(v scim.View) []string {
	var ids []string
	for _, of := range m.fields {
		if of.named {
			ids = append(ids, of.expression.Values(v)...)
		}
	}
	sort.Strings(ids)
	return ids
}
