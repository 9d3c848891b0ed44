package records

import (
	"bytes"
	"context"
	"encoding/json"
	"errors"
	"fmt"
	"io"

	"review-front/source/form"
)

// readLines reads JSON objects, one a line. Empty lines are none.
func readLines(ctx context.Context, s *form.Source, from *form.Lines, to *reading) error {
	content, name, err := read(ctx, s, from.Output)
	if err != nil {
		return err
	}
	wanted := to.kind.Fields()
	for i, line := range bytes.Split(content, newline) {
		if line = bytes.TrimSpace(line); len(line) == 0 {
			continue
		}
		place := fmt.Sprintf("%s:%d", name, i+1)
		fields, err := fieldsOf(line, wanted)
		if err != nil {
			to.fault(place, err)
			continue
		}
		to.take(place, fields)
	}
	return nil
}

// fieldsOf are those fields of an object that are looked at: texts, numbers, truths, and lists of them. Null is no
// value.
func fieldsOf(line []byte, wanted map[string]bool) (Fields, error) {
	from := json.NewDecoder(bytes.NewReader(line))
	from.UseNumber()
	if first, err := from.Token(); err != nil || first != json.Delim('{') {
		return nil, errors.New("it is no JSON object")
	}
	fields := Fields{}
	for from.More() {
		key, err := from.Token()
		if err != nil {
			return nil, fmt.Errorf("it is no JSON object: %w", err)
		}
		var value any
		if err := from.Decode(&value); err != nil {
			return nil, fmt.Errorf("it is no JSON object: %w", err)
		}
		name, _ := key.(string)
		if _, looked := wanted[name]; !looked {
			continue
		}
		if _, there := fields[name]; there {
			return nil, fmt.Errorf("%q stands twice", name)
		}
		if fields[name], err = textsOf(value); err != nil {
			return nil, fmt.Errorf("%q: %w", name, err)
		}
	}
	if _, err := from.Token(); err != nil {
		return nil, fmt.Errorf("it is no JSON object: %w", err)
	}
	if _, err := from.Token(); err != io.EOF {
		return nil, errors.New("something stands behind the object")
	}
	return fields, nil
}

// textsOf are the values of a field.
func textsOf(value any) ([]string, error) {
	switch value := value.(type) {
	case nil:
		return nil, nil
	case []any:
		var all []string
		for _, one := range value {
			texts, err := textsOf(one)
			if err != nil {
				return nil, err
			}
			all = append(all, texts...)
		}
		return all, nil
	case map[string]any:
		return nil, errors.New("an object is no value")
	default:
		return []string{fmt.Sprint(value)}, nil
	}
}
