package access

import (
	"bytes"
	"encoding/json"
	"errors"
	"fmt"
	"unicode/utf8"
)

// Gives is what the requests of somebody may say: for the URI of a category the ids of its attributes, or * for all.
type Gives map[string][]string

// every is the id that stands for all attributes of a category.
const every = "*"

// categories has the names that stand for URIs in a request (JSON Profile, 4.2.2.1).
var categories = map[string]string{
	"AccessSubject":       "urn:oasis:names:tc:xacml:1.0:subject-category:access-subject",
	"Action":              "urn:oasis:names:tc:xacml:3.0:attribute-category:action",
	"Resource":            "urn:oasis:names:tc:xacml:3.0:attribute-category:resource",
	"Environment":         "urn:oasis:names:tc:xacml:3.0:attribute-category:environment",
	"RecipientSubject":    "urn:oasis:names:tc:xacml:1.0:subject-category:recipient-subject",
	"IntermediarySubject": "urn:oasis:names:tc:xacml:1.0:subject-category:intermediary-subject",
	"Codebase":            "urn:oasis:names:tc:xacml:1.0:subject-category:codebase",
	"RequestingMachine":   "urn:oasis:names:tc:xacml:1.0:subject-category:requesting-machine",
}

// NotGiven says which attribute a request may not say.
type NotGiven struct{ Category, Attribute string }

func (n *NotGiven) Error() string {
	return fmt.Sprintf("a request may not give %q of %q", n.Attribute, n.Category)
}

// ErrShape says that a request isn't read here as the program would.
var ErrShape = errors.New("the request can't be read")

// UnmarshalJSON reads what may be given, where the short names of categories stand for their URIs.
func (g *Gives) UnmarshalJSON(written []byte) error {
	var read map[string][]string
	if err := json.Unmarshal(written, &read); err != nil {
		return err
	}
	*g = Gives{}
	for category, attributes := range read {
		(*g)[uriOf(category)] = append((*g)[uriOf(category)], attributes...)
	}
	return nil
}

func uriOf(category string) string {
	if uri, short := categories[category]; short {
		return uri
	}
	return category
}

// and is what two of them allow together; nil allows everything.
func (g *Gives) and(other *Gives) *Gives {
	if g == nil || other == nil {
		return nil
	}
	both := Gives{}
	for _, one := range []*Gives{g, other} {
		for category, attributes := range *one {
			both[category] = append(append([]string(nil), both[category]...), attributes...)
		}
	}
	return &both
}

// CheckLine sees that the request of a line, if it has one, says nothing else.
func (g *Gives) CheckLine(l []byte) error {
	if g == nil {
		return nil
	}
	line, err := object(l)
	if err != nil || line["request"] == nil {
		return err
	}
	outer, err := object(line["request"])
	if err != nil {
		return err
	}
	request, err := object(outer["Request"])
	if err != nil {
		return err
	}
	for name, written := range request {
		if uri, short := categories[name]; short {
			err = g.checkAll(written, uri)
		} else if name == "Category" {
			err = g.checkAll(written, "")
		}
		if err != nil {
			return err
		}
	}
	return nil
}

// checkAll looks at a category or a list of them, each of which names itself where no URI is given.
func (g *Gives) checkAll(written json.RawMessage, uri string) error {
	all, err := list(written)
	if err != nil {
		return err
	}
	for _, one := range all {
		category, err := object(one)
		if err != nil {
			return err
		}
		named := uri
		if named == "" {
			if err := json.Unmarshal(category["CategoryId"], &named); err != nil {
				return ErrShape
			}
			named = uriOf(named)
		}
		if err := g.checkCategory(category, named); err != nil {
			return err
		}
	}
	return nil
}

// checkCategory looks at the attributes of a category.
func (g *Gives) checkCategory(category map[string]json.RawMessage, uri string) error {
	if category["Attribute"] == nil {
		return nil
	}
	all, err := list(category["Attribute"])
	if err != nil {
		return err
	}
	for _, one := range all {
		attribute, err := object(one)
		if err != nil {
			return err
		}
		var id string
		if json.Unmarshal(attribute["AttributeId"], &id) != nil {
			return ErrShape
		}
		if !has((*g)[uri], id) && !has((*g)[uri], every) {
			return &NotGiven{Category: uri, Attribute: id}
		}
	}
	return nil
}

// list is the members of a list, or the one value that stands in its place.
func list(written json.RawMessage) ([]json.RawMessage, error) {
	written = bytes.TrimSpace(written)
	if len(written) == 0 || written[0] != '[' {
		return []json.RawMessage{written}, nil
	}
	var all []json.RawMessage
	if json.Unmarshal(written, &all) != nil {
		return nil, ErrShape
	}
	return all, nil
}

// object is the members of an object, of which no key may stand twice, so that nobody can read another value there.
func object(written []byte) (map[string]json.RawMessage, error) {
	from := json.NewDecoder(bytes.NewReader(written))
	if begin, err := from.Token(); err != nil || begin != json.Delim('{') || !utf8.Valid(written) {
		return nil, ErrShape
	}
	members := map[string]json.RawMessage{}
	for from.More() {
		key, err := from.Token()
		name, isText := key.(string)
		var value json.RawMessage
		if err != nil || !isText || from.Decode(&value) != nil {
			return nil, ErrShape
		}
		if _, there := members[name]; there {
			return nil, fmt.Errorf("%w: the key %q stands twice", ErrShape, name)
		}
		members[name] = value
	}
	return members, nil
}
