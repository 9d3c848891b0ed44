// Package authzen puts requests of AuthZEN (OpenID Authorization API 1.0) as requests of XACML, and decisions as its
// responses. What it says of that API is from memory of its pages.
package authzen

import (
	"fmt"
	"os"
	"strings"

	"review-front/places"
	"review-front/profile"
)

// Mapping says which categories and attributes the types and properties of AuthZEN are.
type Mapping struct {
	// Base is the address of the decision point, where it is another than that at which the front is asked.
	Base                string
	subjects, resources map[string]*kind
	action, context     *kind
}

// kind is what a type of entities is in a request.
type kind struct {
	category   string
	id         string // the attribute that has the name
	prefix     string // of the names in the table, before the ids
	properties map[string]*property
	others     bool // properties that aren't named are passed over
}

// property is the attribute that a property is; a nil one is passed over.
type property struct {
	attribute, datatype string
}

// The categories and the attributes of names that a type has unless the file says others: those of the table.
var (
	tableSubject = kind{
		category: profile.CategoryOf("AccessSubject"), id: "urn:oasis:names:tc:xacml:1.0:subject:subject-id",
	}
	tableAction = kind{
		category: profile.CategoryOf("Action"), id: "urn:oasis:names:tc:xacml:1.0:action:action-id",
	}
	tableResource = kind{
		category: profile.CategoryOf("Resource"), id: "urn:oasis:names:tc:xacml:1.0:resource:resource-id",
	}
	aroundAll = kind{category: profile.CategoryOf("Environment")}
)

// Open reads the mapping of a file.
func Open(file string) (*Mapping, error) {
	content, err := os.ReadFile(file)
	if err != nil {
		return nil, err
	}
	mapping, err := Read(content)
	if err != nil {
		return nil, fmt.Errorf("%s: %w", file, err)
	}
	return mapping, nil
}

// Read reads a mapping.
func Read(content []byte) (*Mapping, error) {
	root, err := places.Parse(content)
	if err == nil {
		err = root.Only("action", "base", "context", "resource", "subject")
	}
	if err != nil {
		return nil, err
	}
	m := &Mapping{}
	if m.Base, _, err = root.Text("base"); err != nil {
		return nil, err
	}
	m.Base = strings.TrimSuffix(m.Base, "/")
	if m.subjects, err = kindsOf(root, "subject", tableSubject); err != nil {
		return nil, err
	}
	if m.resources, err = kindsOf(root, "resource", tableResource); err != nil {
		return nil, err
	}
	if m.action, err = kindAt(root, "action", tableAction); err != nil {
		return nil, err
	}
	m.context, err = kindAt(root, "context", aroundAll)
	return m, err
}

// kindsOf reads the types at a key.
func kindsOf(root places.Node, key string, otherwise kind) (map[string]*kind, error) {
	all, err := root.Needed(key)
	if err != nil {
		return nil, err
	}
	named, ok := all.Value.(map[string]any)
	if !ok || len(named) == 0 {
		return nil, all.Fault("it isn't an object that names a type")
	}
	kinds := map[string]*kind{}
	for name := range named {
		if kinds[name], err = kindAt(all, name, otherwise); err != nil {
			return nil, err
		}
		for other, known := range kinds {
			if other != name && known.prefix == kinds[name].prefix {
				return nil, all.Fault("the types %q and %q have the same prefix", other, name)
			}
		}
	}
	return kinds, nil
}

// kindAt reads what stands at a key, which is as told where it is absent.
func kindAt(n places.Node, key string, otherwise kind) (*kind, error) {
	found := otherwise
	at, there := n.Child(key)
	if !there {
		return &found, nil
	}
	if err := at.Only("category", "id", "prefix", "properties"); err != nil {
		return nil, err
	}
	category, there, err := at.Name("category")
	if err != nil {
		return nil, err
	}
	if there {
		found.category = profile.CategoryOf(category)
	}
	id, there, err := at.Name("id")
	if err != nil {
		return nil, err
	}
	if there {
		found.id = id
	}
	if found.prefix, _, err = at.Text("prefix"); err != nil {
		return nil, err
	}
	err = found.read(at)
	return &found, err
}

// read reads the properties of a type. A `*` at null has all others passed over.
func (k *kind) read(at places.Node) error {
	all, there := at.Child("properties")
	if !there {
		return nil
	}
	named, ok := all.Value.(map[string]any)
	if !ok {
		return all.Fault("it isn't an object")
	}
	k.properties = map[string]*property{}
	for name, value := range named {
		one, _ := all.Child(name)
		switch {
		case value == nil && name == "*":
			k.others = true
			continue
		case value == nil:
			k.properties[name] = nil
			continue
		}
		if err := one.Only("attribute", "type"); err != nil {
			return err
		}
		attribute, err := one.NeededName("attribute")
		if err != nil {
			return err
		}
		datatype, _, err := one.Text("type")
		if err != nil {
			return err
		}
		if datatype != "" && !profile.IsHere(datatype) {
			return one.Fault("the type %q isn't here", datatype)
		}
		k.properties[name] = &property{attribute, datatype}
	}
	return nil
}

// isOf says whether a type is in the table: its category and the attribute of its name are those of the table.
func (k *kind) isOf(table kind) bool { return k.category == table.category && k.id == table.id }
