package scim

import (
	"encoding/json"
	"fmt"
	"strconv"
)

// Expression names values of a resource: those of an attribute, or of a part of it, also of those of its values alone
// that a filter in brackets means.
type Expression struct {
	path   Path
	filter Filter
}

// ParseExpression reads one of a kind.
func ParseExpression(k *Kind, text string) (*Expression, error) {
	name, filter, rest, filtered, err := cutFilter(text)
	if err != nil {
		return nil, err
	}
	e := &Expression{}
	if e.path, err = k.path(name); err != nil {
		return nil, err
	}
	if filtered {
		if e.path.Attr == nil || e.path.Sub != nil || e.path.Attr.Type != TypeComplex {
			return nil, fmt.Errorf("%q has no parts that a filter could name", name)
		}
		if e.filter, err = parseFilter(filter, e.path.Attr.part); err != nil {
			return nil, err
		}
		if rest != "" {
			if e.path.Sub = find(e.path.Attr.Sub, rest); e.path.Sub == nil {
				return nil, fmt.Errorf("there is no part %q of %s", rest, e.path.Attr.Name)
			}
		}
	}
	if e.path.Attr == nil || e.path.leaf() == nil {
		return nil, fmt.Errorf("%q has no one value: name a part of it", text)
	}
	return e, nil
}

// Values are those of a resource, as texts.
func (e *Expression) Values(v View) []string {
	var texts []string
	for _, value := range listed(v.of(e.path.Schema, e.path.Attr)) {
		if some, is := value.(map[string]any); e.filter != nil && !(is && e.filter.matches(parts(some))) {
			continue
		}
		for _, one := range e.path.leaves(value) {
			switch leaf := one.(type) {
			case string:
				texts = append(texts, leaf)
			case bool:
				texts = append(texts, strconv.FormatBool(leaf))
			case json.Number:
				texts = append(texts, leaf.String())
			}
		}
	}
	return texts
}
