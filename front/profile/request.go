// Package profile reads requests of XACML 3.0, in JSON or XML, of which the program takes only some as they are: those
// that hold several are taken apart, and what the program doesn't know but means the same is put as it knows it. What
// can't be asked is told by its place.
package profile

import (
	"encoding/json"
	"fmt"

	"review-front/places"
)

// MostBytes is how many bytes the requests have together that are asked together.
const MostBytes = 16 << 20

// Many says that a request holds more questions than may be asked together.
type Many struct{ Most int }

func (m *Many) Error() string {
	return fmt.Sprintf("the request holds more than %d questions, or %d bytes of them", m.Most, MostBytes)
}

// Attribute is one that a request gives (section 5.46), of a type that is here.
type Attribute struct {
	ID       string  `json:"AttributeId"`
	Issuer   *string `json:"Issuer,omitempty"`
	Included bool    `json:"IncludeInResult,omitempty"`
	Type     string  `json:"DataType"`
	Values   []any   `json:"Value"` // each a text, a boolean or a json.Number
}

// Category has attributes of one category (section 5.44).
type Category struct {
	URI        string      `json:"CategoryId"`
	Attributes []Attribute `json:"Attribute"`

	name  string // by which MultiRequests refer to it, or nothing
	place string
}

// Written is a request of these categories, as the program takes it.
func Written(categories []Category) ([]byte, error) {
	if categories == nil {
		categories = []Category{}
	}
	return json.Marshal(map[string]any{"Request": map[string]any{"Category": categories}})
}

// all writes requests, of which there are at most so many.
func all(requests [][]Category, most int) ([][]byte, error) {
	var written [][]byte
	length := 0
	for _, categories := range requests {
		one, err := Written(categories)
		if err != nil {
			return nil, err
		}
		if length += len(one); length > MostBytes {
			return nil, &Many{most}
		}
		written = append(written, one)
	}
	return written, nil
}

// reference is which categories one of several requests has, by their names.
type reference struct {
	place string
	names []string
}

// several takes a request apart: into those that its references name, if it has any, and each of them into all
// combinations with one category of each kind (Multiple Decision Profile, sections 2.4 and 2.3). There are at most so
// many.
func several(categories []Category, references []reference, most int) ([][]Category, error) {
	if references == nil {
		return combined(categories, most)
	}
	byName := map[string]int{}
	for at, one := range categories {
		if _, there := byName[one.name]; there && one.name != "" {
			return nil, &places.Fault{Place: one.place, What: fmt.Sprintf("another category has its id, %q", one.name)}
		}
		byName[one.name] = at
	}
	var requests [][]Category
	for _, one := range references {
		chosen := make([]bool, len(categories))
		for _, name := range one.names {
			at, there := byName[name]
			if !there || name == "" {
				return nil, &places.Fault{Place: one.place, What: fmt.Sprintf("no category has the id %q", name)}
			}
			if chosen[at] {
				return nil, &places.Fault{Place: one.place, What: fmt.Sprintf("it refers to %q twice", name)}
			}
			chosen[at] = true
		}
		var those []Category
		for at, is := range chosen {
			if is {
				those = append(those, categories[at])
			}
		}
		more, err := combined(those, most-len(requests))
		if err != nil {
			return nil, &Many{most}
		}
		requests = append(requests, more...)
	}
	return requests, nil
}

// combined is each combination of categories with one of each kind, in their order: those of the kind that comes first
// change last.
func combined(categories []Category, most int) ([][]Category, error) {
	var kinds [][]Category
	at := map[string]int{}
	for _, one := range categories {
		kind, there := at[one.URI]
		if !there {
			kind = len(kinds)
			at[one.URI] = kind
			kinds = append(kinds, nil)
		}
		kinds[kind] = append(kinds[kind], one)
	}
	requests := [][]Category{nil}
	for _, kind := range kinds {
		if len(requests)*len(kind) > most {
			return nil, &Many{most}
		}
		var longer [][]Category
		for _, before := range requests {
			for _, one := range kind {
				longer = append(longer, append(append([]Category(nil), before...), one))
			}
		}
		requests = longer
	}
	if len(requests) > most {
		return nil, &Many{most}
	}
	return requests, nil
}
