// Package form reads the files that say where a company keeps its people and things, and how a record becomes a name
// and rows.
package form

import (
	"bytes"
	"encoding/json"
	"errors"
	"fmt"
	"io"
	"os"
	"path/filepath"
	"sort"
	"strings"
)

// MarkBegins is how the attribute begins by which a source knows its names again, and RowsBegins how that of a source
// which gives rows to names of others; the source's name follows.
const (
	MarkBegins = "urn:review:source:"
	RowsBegins = "urn:review:rows-of:"
)

// most bounds what stands in a file, so that all edits of a record fit into one body.
const (
	mostAttributes = 256
	mostBytes      = 256
	mostModules    = 4
)

// Source is what one file says.
type Source struct {
	Path        string `json:"-"`
	Name        string `json:"source"`
	Module      int    `json:"module"`
	Issuer      string `json:"issuer"`
	Token       string `json:"token"`
	Certificate string `json:"certificate"`
	Key         string `json:"key"`
	People      *Kind  `json:"people"`
	Actions     *Kind  `json:"actions"`
	Resources   *Kind  `json:"resources"`
}

// Kind says where names of one list come from.
type Kind struct {
	List       string               `json:"-"` // people, actions or resources
	CSV        *CSV                 `json:"csv"`
	Lines      *Lines               `json:"lines"`
	LDAP       *LDAP                `json:"ldap"`
	Postgres   *Postgres            `json:"postgres"`
	Name       Name                 `json:"name"`
	ListedOnly bool                 `json:"listed_only"`
	Attributes map[string]Attribute `json:"attributes"`
	Gone       []string             `json:"gone"`
	owned      []string
}

// CSV is a file of records with a head, or what a command writes.
type CSV struct {
	Output
	Separator string `json:"separator"`
}

// Lines is a file of JSON objects, one a line, or what a command writes.
type Lines struct{ Output }

// Output is a file, or a command and what it writes. Last is the line with which it ends, where it says so.
type Output struct {
	File    string   `json:"file"`
	Command []string `json:"command"`
	Last    string   `json:"last"`
}

// LDAP is a search in a directory.
type LDAP struct {
	Address      string  `json:"address"`
	StartTLS     bool    `json:"start_tls"`
	Authority    string  `json:"authority"`
	Bind         string  `json:"bind"`
	PasswordFile string  `json:"password_file"`
	Base         string  `json:"base"`
	Filter       string  `json:"filter"`
	Page         uint32  `json:"page"`
	Groups       *Groups `json:"groups"`
}

// Groups are entries that have others as members. A field of each record, As, has the names of those that it is in, by
// whatever way.
type Groups struct {
	Base   string `json:"base"`
	Filter string `json:"filter"`
	Member string `json:"member"`
	Name   string `json:"name"`
	As     string `json:"as"`
}

// Postgres is a query.
type Postgres struct {
	Connection   string `json:"connection"`
	PasswordFile string `json:"password_file"`
	Query        string `json:"query"`
	Notify       string `json:"notify"`
}

// Name says which field of a record is its name.
type Name struct {
	From string `json:"from"`
	Case string `json:"case"`
}

// Attribute says which field becomes an attribute, and how.
type Attribute struct {
	From     string `json:"from"`
	Type     string `json:"type"`
	List     string `json:"list"`
	Form     string `json:"form"`
	Case     string `json:"case"`
	Optional bool   `json:"optional"` // no record may have it
}

// UnmarshalJSON takes a text for the field alone.
func (n *Name) UnmarshalJSON(written []byte) error {
	if json.Unmarshal(written, &n.From) == nil {
		return nil
	}
	type plain Name
	return strict(written, (*plain)(n))
}

// UnmarshalJSON takes a text for the field alone.
func (a *Attribute) UnmarshalJSON(written []byte) error {
	if json.Unmarshal(written, &a.From) == nil {
		return nil
	}
	type plain Attribute
	return strict(written, (*plain)(a))
}

// strict reads JSON that has no key besides those that are known.
func strict(written []byte, to any) error {
	from := json.NewDecoder(bytes.NewReader(written))
	from.DisallowUnknownFields()
	if err := from.Decode(to); err != nil {
		return err
	}
	if _, err := from.Token(); err != io.EOF {
		return errors.New("something stands behind the object")
	}
	return nil
}

// Kinds are those that a source has, in the order of the lists.
func (s *Source) Kinds() []*Kind {
	var kinds []*Kind
	for _, kind := range []*Kind{s.People, s.Actions, s.Resources} {
		if kind != nil {
			kinds = append(kinds, kind)
		}
	}
	return kinds
}

// Kind is that of a list, or nil.
func (s *Source) Kind(list string) *Kind {
	for _, kind := range s.Kinds() {
		if kind.List == list {
			return kind
		}
	}
	return nil
}

// Marks are the attribute by which the source knows the names of a kind again, and the one that it had if the kind gave
// rows alone then, or names.
func (s *Source) Marks(kind *Kind) (mark, other string) {
	if kind.ListedOnly {
		return RowsBegins + s.Name, MarkBegins + s.Name
	}
	return MarkBegins + s.Name, RowsBegins + s.Name
}

// Beside is the path of a file that the source's own names.
func (s *Source) Beside(path string) string {
	if path == "" || filepath.IsAbs(path) {
		return path
	}
	return filepath.Join(filepath.Dir(s.Path), path)
}

// Owned are the attributes of a kind, those that it had once too.
func (k *Kind) Owned() []string {
	if k.owned == nil {
		k.owned = append([]string{}, k.Gone...)
		for name := range k.Attributes {
			k.owned = append(k.owned, name)
		}
		sort.Strings(k.owned)
	}
	return k.owned
}

// Read reads files, and those of folders that end with .json, and sees that they go together.
func Read(paths ...string) ([]*Source, error) {
	var sources []*Source
	for _, path := range paths {
		files := []string{path}
		if about, err := os.Stat(path); err == nil && about.IsDir() {
			if files, err = filepath.Glob(filepath.Join(path, "*.json")); err != nil {
				return nil, err
			}
			if sort.Strings(files); len(files) == 0 {
				return nil, fmt.Errorf("%s has no file that ends with .json", path)
			}
		}
		for _, file := range files {
			one, err := readOne(file)
			if err != nil {
				return nil, fmt.Errorf("%s: %w", file, err)
			}
			sources = append(sources, one)
		}
	}
	return sources, together(sources)
}

func readOne(path string) (*Source, error) {
	written, err := os.ReadFile(path)
	if err != nil {
		return nil, err
	}
	s := &Source{Path: path}
	if err := strict(written, s); err != nil {
		return nil, err
	}
	for list, kind := range map[string]*Kind{"people": s.People, "actions": s.Actions, "resources": s.Resources} {
		if kind != nil {
			kind.List = list
		}
	}
	return s, s.wrong()
}

// together sees that no attribute is of two sources, where they share a module.
func together(sources []*Source) error {
	owners := map[string]*Source{}
	names := map[string]*Source{}
	for _, s := range sources {
		if other := names[s.Name]; other != nil {
			return fmt.Errorf("%s and %s are both the source %q", other.Path, s.Path, s.Name)
		}
		names[s.Name] = s
		for _, kind := range s.Kinds() {
			for _, attribute := range kind.Owned() {
				key := fmt.Sprint(s.Module, " ", kind.List, " ", attribute)
				if other := owners[key]; other != nil {
					return fmt.Errorf("%s and %s both have %q of %s in module %d",
						other.Path, s.Path, attribute, kind.List, s.Module)
				}
				owners[key] = s
			}
		}
	}
	return nil
}

// Given is a source whose people somebody else reads, or says what is wrong with it.
func Given(name string, module int, issuer string, people *Kind) (*Source, error) {
	people.List = "people"
	s := &Source{Name: name, Module: module, Issuer: issuer, People: people}
	if err := s.wrongSelf(); err != nil {
		return nil, err
	}
	return s, people.wrongRows()
}

// wrong says what is wrong with a file.
func (s *Source) wrong() error {
	if err := s.wrongSelf(); err != nil {
		return err
	}
	switch {
	case (s.Certificate == "") != (s.Key == ""):
		return errors.New(`"certificate" and "key" go together`)
	case len(s.Kinds()) == 0:
		return errors.New(`there are no "people", "actions" or "resources"`)
	}
	for _, kind := range s.Kinds() {
		if err := kind.wrong(); err != nil {
			return fmt.Errorf("%s: %w", kind.List, err)
		}
	}
	return nil
}

// wrongSelf says what is wrong with its name, its module and its issuer.
func (s *Source) wrongSelf() error {
	switch {
	case s.Name == "" || len(MarkBegins+s.Name) > mostBytes || strings.ContainsAny(s.Name, "\r\n"):
		return errors.New(`"source" is the name of the source, of a few letters`)
	case s.Module < 0 || s.Module >= mostModules:
		return fmt.Errorf("module %d isn't one of 0 to 3", s.Module)
	case len(s.Issuer) > mostBytes:
		return errors.New("the issuer is longer than 256 bytes")
	}
	return nil
}

// Fields are those of a record that are looked at, and whether some record has to have each.
func (k *Kind) Fields() map[string]bool {
	fields := map[string]bool{}
	for _, attribute := range k.Attributes {
		fields[attribute.From] = fields[attribute.From] || !attribute.Optional
	}
	fields[k.Name.From] = true
	return fields
}
