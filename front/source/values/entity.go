package values

import (
	"errors"
	"fmt"
	"sort"
	"strings"
	"unicode/utf8"

	"review-front/source/form"
)

const (
	mostBytes  = 256 // of a name
	mostValues = 256 // of a row
	mostText   = 1e6 // bytes of all values of a row, which is sent as one line
	mostWhole  = 1e6 // bytes of a record, whose rows are sent in one body
)

// Fields are those of a record, each with its values.
type Fields map[string][]string

// Entity is a name with the values of its attributes, each in the program's spelling.
type Entity struct {
	Name   string
	Place  string
	Values map[string][]string
}

// Of makes a name and rows of a record.
func Of(kind *form.Kind, fields Fields) (*Entity, error) {
	named := fields[kind.Name.From]
	switch {
	case len(named) == 0 || named[0] == "":
		return nil, fmt.Errorf("%q, its name, is empty", kind.Name.From)
	case len(named) > 1:
		return nil, fmt.Errorf("%q, its name, has %d values", kind.Name.From, len(named))
	case !utf8.ValidString(named[0]):
		return nil, fmt.Errorf("its name: %w", ErrNoUTF8)
	}
	entity := &Entity{Name: cased(named[0], kind.Name.Case), Values: map[string][]string{}}
	if len(entity.Name) > mostBytes {
		return nil, fmt.Errorf("its name has %d bytes, and may have %d: %.40q..", len(entity.Name), mostBytes, entity.Name)
	}
	whole := 0
	for name, attribute := range kind.Attributes {
		given, bytes, err := valuesOf(fields[attribute.From], attribute)
		if err == nil && whole+bytes > mostWhole {
			err = errors.New("the record is longer than a body may be")
		}
		if err != nil {
			return nil, fmt.Errorf("%s of %q: %w", name, entity.Name, err)
		}
		whole += bytes + 2*len(entity.Name) + 2*len(name) + 250
		if len(given) > 0 {
			entity.Values[name] = given
		}
	}
	return entity, nil
}

// valuesOf are the values of a field as those of an attribute, in order and each once, with how long they are.
func valuesOf(texts []string, of form.Attribute) ([]string, int, error) {
	if of.List != "" {
		var parts []string
		for _, one := range texts {
			parts = append(parts, strings.Split(one, of.List)...)
		}
		for i, part := range parts {
			parts[i] = strings.TrimSpace(part)
		}
		texts = parts
	}
	var values []string
	bytes := 0
	for _, one := range texts {
		if one == "" {
			continue
		}
		if !utf8.ValidString(one) {
			return nil, 0, ErrNoUTF8
		}
		value, err := Value(one, of)
		if err != nil {
			return nil, 0, err
		}
		values = append(values, value)
		bytes += written(value)
	}
	values = Ordered(values)
	switch {
	case len(values) > mostValues:
		return nil, 0, fmt.Errorf("it has %d values, and may have %d", len(values), mostValues)
	case bytes > mostText:
		return nil, 0, errors.New("its values are longer than a line may be")
	}
	return values, bytes, nil
}

// written is how many bytes a value has at most as JSON, with a comma.
func written(value string) int {
	bytes := len(value) + 3
	for _, sign := range value {
		if sign < ' ' || sign == '"' || sign == '\\' || sign == '\u2028' || sign == '\u2029' {
			bytes += 5
		}
	}
	return bytes
}

// Ordered are values in the order of their bytes, each once: where they come from has no order that stays.
func Ordered(values []string) []string {
	sort.Strings(values)
	kept := values[:0]
	for i, value := range values {
		if i == 0 || value != values[i-1] {
			kept = append(kept, value)
		}
	}
	return kept
}
