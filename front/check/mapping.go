// Package check reads what a proxy asks about a request of somebody before it passes that on: a file says how it
// becomes a request of XACML, and what becomes of obligations.
package check

import (
	"bytes"
	"crypto/x509"
	"encoding/json"
	"fmt"
	"net/http"
	"os"
	"path/filepath"
	"strings"
	"sync/atomic"

	"review-front/places"
	"review-front/profile"
)

// Mapping is what a file says.
type Mapping struct {
	method, uri string // the fields that tell what was asked; nothing: the request itself does
	permit      int    // the status of what is to be passed on
	fold        bool   // the server behind takes upper and lower case for the same
	subject     subject
	actions     map[string]string
	paths       []path
	obligations map[string]obligation
	hands       map[string]bool // the fields by which these are handed over
}

// subject is where it stands who asks.
type subject struct {
	header, token, certificate string // the one field of these that is named
	claim                      string // of a token: which has the name
	challenge                  string // how who isn't known may show who he is
	prefix                     string // of the names in the table
	claims                     map[string]property
	authority                  *x509.CertPool
}

// path is what a pattern means.
type path struct {
	pattern
	resource *template         // the name of the resource; nil: the path
	actions  map[string]string // in place of those of the file
	parts    map[string]property
}

// property is the attribute that a part or a claim is. One without a name is passed over.
type property struct{ attribute, datatype string }

// obligation is by which fields of an answer one is handed over.
type obligation struct {
	header string // gets its id
	values map[string]string
}

// usualActions are the methods that are actions by their own names, where the file names none.
var usualActions = map[string]string{
	"GET": "GET", "HEAD": "HEAD", "POST": "POST", "PUT": "PUT", "PATCH": "PATCH", "DELETE": "DELETE", "OPTIONS": "OPTIONS",
}

// File is a mapping as it was read last.
type File struct {
	name string
	now  atomic.Pointer[Mapping]
}

// Open reads a file.
func Open(name string) (*File, error) {
	f := &File{name: name}
	return f, f.Again()
}

// Again reads it again. Where it can't be read, what was read before stays.
func (f *File) Again() error {
	content, err := os.ReadFile(f.name)
	if err != nil {
		return err
	}
	mapping, err := Read(content, filepath.Dir(f.name))
	if err != nil {
		return fmt.Errorf("%s: %w", f.name, err)
	}
	f.now.Store(mapping)
	return nil
}

// Now is the mapping.
func (f *File) Now() *Mapping { return f.now.Load() }

// Verifies says whether tokens have to be verified.
func (m *Mapping) Verifies() bool { return m.subject.token != "" }

// Read reads a mapping; files that it names stand in a folder.
func Read(content []byte, folder string) (*Mapping, error) {
	root, err := parsed(content)
	if err == nil {
		err = root.Only("actions", "case", "obligations", "paths", "permit", "request", "subject")
	}
	if err != nil {
		return nil, err
	}
	m := &Mapping{actions: usualActions}
	steps := []func(places.Node) error{
		m.readRequest, m.readPermit, m.readCase, func(n places.Node) error { return m.subject.read(n, folder) },
		func(n places.Node) error { return readActions(n, &m.actions) }, m.readPaths, m.readObligations,
	}
	for _, step := range steps {
		if err := step(root); err != nil {
			return nil, err
		}
	}
	return m, m.subject.apart(m)
}

// parsed is the JSON of a file, in which no key may stand twice.
func parsed(content []byte) (places.Node, error) {
	from := json.NewDecoder(bytes.NewReader(content))
	if err := once(from); err != nil {
		line := 1 + bytes.Count(content[:from.InputOffset()], []byte("\n"))
		return places.Node{}, fmt.Errorf("line %d: %w", line, err)
	}
	return places.Parse(content)
}

// once sees that no key of a value stands twice.
func once(from *json.Decoder) error {
	begin, err := from.Token()
	if err != nil {
		return fmt.Errorf("it isn't JSON: %w", err)
	}
	delim, nests := begin.(json.Delim)
	if !nests {
		return nil
	}
	known := map[string]bool{}
	for from.More() {
		if delim == '{' {
			key, err := from.Token()
			if err != nil {
				return fmt.Errorf("it isn't JSON: %w", err)
			}
			name, _ := key.(string)
			if known[name] {
				return fmt.Errorf("the key %q stands twice", name)
			}
			known[name] = true
		}
		if err := once(from); err != nil {
			return err
		}
	}
	if _, err := from.Token(); err != nil {
		return fmt.Errorf("it isn't JSON: %w", err)
	}
	return nil
}

// fieldAt is the name of a head's field at a key, which may be absent.
func fieldAt(n places.Node, key string) (string, error) {
	name, there, err := n.Name(key)
	if err != nil || !there {
		return "", err
	}
	for i := 0; i < len(name); i++ {
		if !isLetter(name[i]) && name[i] != '-' {
			at, _ := n.Child(key)
			return "", at.Fault("a field's name has letters, digits and dashes")
		}
	}
	return http.CanonicalHeaderKey(name), nil
}

// readRequest reads which fields tell what was asked.
func (m *Mapping) readRequest(root places.Node) (err error) {
	at, there := root.Child("request")
	if !there {
		return nil
	}
	if err = at.Only("method", "uri"); err != nil {
		return err
	}
	if m.method, err = fieldAt(at, "method"); err == nil {
		m.uri, err = fieldAt(at, "uri")
	}
	if err == nil && (m.method == "" || m.uri == "") {
		err = at.Fault("method and uri name a field each")
	}
	return err
}

// readPermit reads the status of what is to be passed on: some proxies take 200 alone.
func (m *Mapping) readPermit(root places.Node) error {
	m.permit = http.StatusNoContent
	at, there := root.Child("permit")
	switch at.Value {
	case json.Number("200"):
		m.permit = http.StatusOK
	case json.Number("204"):
	default:
		if there {
			return at.Fault("it is 200 or 204")
		}
	}
	return nil
}

// readCase reads whether upper and lower case are the same.
func (m *Mapping) readCase(root places.Node) error {
	word, there, err := root.Text("case")
	if err == nil && there && word != "exact" && word != "same" {
		at, _ := root.Child("case")
		return at.Fault("it is exact or same")
	}
	m.fold = word == "same"
	return err
}

// readActions reads which action a method is, where that is said.
func readActions(n places.Node, to *map[string]string) error {
	all, there := n.Child("actions")
	if !there {
		return nil
	}
	named, ok := all.Value.(map[string]any)
	if !ok || len(named) == 0 {
		return all.Fault("it isn't an object that names a method")
	}
	*to = map[string]string{}
	for method := range named {
		if strings.ToUpper(method) != method {
			return all.Fault("the method %q isn't in upper case", method)
		}
		action, err := all.NeededName(method)
		if err != nil {
			return err
		}
		(*to)[method] = action
	}
	return nil
}

// propertiesAt reads which attributes parts or claims are.
func propertiesAt(n places.Node, key string, known func(name string) bool) (map[string]property, error) {
	read := map[string]property{}
	all, there := n.Child(key)
	if !there {
		return read, nil
	}
	named, ok := all.Value.(map[string]any)
	if !ok {
		return nil, all.Fault("it isn't an object")
	}
	for name, value := range named {
		one, _ := all.Child(name)
		if !known(name) {
			return nil, one.Fault("the path has no part {%s}", name)
		}
		if value == nil {
			read[name] = property{}
			continue
		}
		if err := one.Only("attribute", "type"); err != nil {
			return nil, err
		}
		attribute, err := one.NeededName("attribute")
		if err != nil {
			return nil, err
		}
		datatype, _, err := one.Text("type")
		if err != nil {
			return nil, err
		}
		if datatype != "" && !profile.IsHere(datatype) {
			return nil, one.Fault("the type %q isn't here", datatype)
		}
		read[name] = property{attribute, datatype}
	}
	return read, nil
}

// readPaths reads the patterns, of which the first counts that covers a path.
func (m *Mapping) readPaths(root places.Node) error {
	all, err := root.Needed("paths")
	if err != nil {
		return err
	}
	list, ok := all.Value.([]any)
	if !ok || len(list) == 0 {
		return all.Fault("it isn't a list of paths")
	}
	written := map[string]bool{}
	for i, value := range list {
		at := places.Node{Value: value, Place: fmt.Sprintf("%s/%d", all.Place, i)}
		one, err := pathAt(at, m.fold)
		if err != nil {
			return err
		}
		if written[one.written] {
			return at.Fault("the path %s stands above already", one.written)
		}
		written[one.written] = true
		m.paths = append(m.paths, one)
	}
	return nil
}

// pathAt reads a pattern and what it means.
func pathAt(at places.Node, fold bool) (path, error) {
	var p path
	if err := at.Only("actions", "parts", "path", "resource"); err != nil {
		return p, err
	}
	written, err := at.NeededName("path")
	if err != nil {
		return p, err
	}
	if p.pattern, err = parse(written, fold); err != nil {
		return p, at.Fault("%s", err)
	}
	name, there, err := at.Name("resource")
	if err != nil {
		return p, err
	}
	if there {
		t, err := templateOf(name, p.pattern)
		if err != nil {
			return p, at.Fault("the resource: %s", err)
		}
		p.resource = &t
	}
	if p.parts, err = propertiesAt(at, "parts", p.has); err != nil {
		return p, err
	}
	return p, readActions(at, &p.actions)
}

// own are the fields of an answer that have a meaning of their own.
var own = map[string]bool{
	"": true, "Cache-Control": true, "Connection": true, "Content-Encoding": true, "Content-Length": true,
	"Content-Type": true, "Date": true, "Reason": true, "Retry-After": true, "Review-Serial": true, "Set-Cookie": true,
	"Trailer": true, "Transfer-Encoding": true, "Upgrade": true, "Www-Authenticate": true,
}

// handing is the name of a field at a key, which hands something over that no other field does.
func (m *Mapping) handing(n places.Node, key string) (string, error) {
	name, err := fieldAt(n, key)
	at, there := n.Child(key)
	if err != nil || !there {
		return "", err
	}
	if own[name] || m.hands[name] {
		return "", at.Fault("the field %s has another meaning", name)
	}
	m.hands[name] = true
	return name, nil
}

// readObligations reads which fields hand obligations over.
func (m *Mapping) readObligations(root places.Node) error {
	m.obligations, m.hands = map[string]obligation{}, map[string]bool{}
	all, there := root.Child("obligations")
	if !there {
		return nil
	}
	named, ok := all.Value.(map[string]any)
	if !ok {
		return all.Fault("it isn't an object")
	}
	for id := range named {
		at, _ := all.Child(id)
		if err := at.Only("header", "values"); err != nil {
			return err
		}
		var one obligation
		var err error
		if one.header, err = m.handing(at, "header"); err != nil {
			return err
		}
		one.values = map[string]string{}
		values, there := at.Child("values")
		if _, isObject := values.Value.(map[string]any); there && !isObject {
			return values.Fault("it isn't an object")
		}
		attributes, _ := values.Value.(map[string]any)
		for attribute := range attributes {
			if one.values[attribute], err = m.handing(values, attribute); err != nil {
				return err
			}
		}
		if one.header == "" && len(one.values) == 0 {
			return at.Fault("no field hands it over")
		}
		m.obligations[id] = one
	}
	return nil
}
