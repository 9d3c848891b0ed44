package scim

import (
	"errors"
	"fmt"
	"strings"
)

// Path is an attribute of a kind, or a part of one.
type Path struct {
	Schema *Schema    // of an extension; nil: the kind's own
	Attr   *Attribute // nil: all of the extension
	Sub    *Attribute // nil: all of the attribute
}

var errPath = errors.New("there is no such attribute")

// Path finds what a name names.
func (k *Kind) Path(name string) (Path, error) { return k.path(name) }

// path finds what a name names: an attribute, a part of one behind a point, each behind the id of its schema and a
// colon where it has that. One of an extension may stand without it, where the kind has none of that name.
func (k *Kind) path(name string) (Path, error) {
	if strings.HasPrefix(strings.ToLower(name), "urn:") {
		return k.ofSchema(name)
	}
	if p, ok := within(nil, append(append([]*Attribute(nil), common...), k.Core.Attributes...), name); ok {
		return p, nil
	}
	var found []Path
	for _, one := range k.Extensions {
		if p, ok := within(one, one.Attributes, name); ok {
			found = append(found, p)
		}
	}
	if len(found) == 1 {
		return found[0], nil
	}
	return Path{}, fmt.Errorf("%w: %.200q", errPath, name)
}

// ofSchema finds what a name behind the id of a schema names.
func (k *Kind) ofSchema(name string) (Path, error) {
	for i, one := range append([]*Schema{k.Core}, k.Extensions...) {
		if len(name) < len(one.ID) || !strings.EqualFold(name[:len(one.ID)], one.ID) {
			continue
		}
		schema, rest := one, name[len(one.ID):]
		if i == 0 {
			schema = nil
		}
		if rest == "" && schema != nil {
			return Path{Schema: schema}, nil
		}
		attributes := one.Attributes
		if i == 0 {
			attributes = append(append([]*Attribute(nil), common...), attributes...)
		}
		if strings.HasPrefix(rest, ":") {
			if p, ok := within(schema, attributes, rest[1:]); ok {
				return p, nil
			}
		}
	}
	return Path{}, fmt.Errorf("%w: %.200q", errPath, name)
}

// within finds an attribute among some, or a part of one.
func within(schema *Schema, all []*Attribute, name string) (Path, bool) {
	name, sub, parted := strings.Cut(name, ".")
	p := Path{Schema: schema, Attr: find(all, name)}
	if p.Attr == nil {
		return p, false
	}
	if !parted {
		return p, true
	}
	p.Sub = find(p.Attr.Sub, sub)
	return p, p.Sub != nil
}

// value is what is compared of an attribute that has parts: the part `value`, or nil.
func (a *Attribute) value() *Attribute {
	if a.Type != TypeComplex {
		return a
	}
	return find(a.Sub, "value")
}

// Has says whether a path names all of an attribute that another path names a part of, or the same.
func (p Path) Has(other Path) bool {
	return p.Schema == other.Schema && (p.Attr == nil || p.Attr == other.Attr && (p.Sub == nil || p.Sub == other.Sub))
}

// String is the path as it is written.
func (p Path) String() string {
	text := ""
	if p.Schema != nil {
		text = p.Schema.ID
	}
	if p.Attr != nil {
		if text != "" {
			text += ":"
		}
		text += p.Attr.Name
	}
	if p.Sub != nil {
		text += "." + p.Sub.Name
	}
	return text
}

// cutFilter divides a path with a filter in it, as emails[type eq "work"].value, into what stands before, in and behind
// the brackets.
func cutFilter(text string) (name, filter, rest string, has bool, err error) {
	open := strings.IndexByte(text, '[')
	if open < 0 {
		return text, "", "", false, nil
	}
	quoted := false
	for at := open + 1; at < len(text); at++ {
		switch {
		case quoted && text[at] == '\\':
			at++
		case text[at] == '"':
			quoted = !quoted
		case !quoted && text[at] == ']':
			rest = text[at+1:]
			if rest != "" && (rest[0] != '.' || len(rest) == 1) {
				return "", "", "", true, fmt.Errorf("%.200q stands behind the brackets", rest)
			}
			return text[:open], text[open+1 : at], strings.TrimPrefix(rest, "."), true, nil
		}
	}
	return "", "", "", true, errors.New("a bracket isn't closed")
}
