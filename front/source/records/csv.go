package records

import (
	"bytes"
	"context"
	"encoding/csv"
	"errors"
	"fmt"
	"io"

	"review-front/source/form"
)

// readCSV reads records whose first one names the fields.
func readCSV(ctx context.Context, s *form.Source, from *form.CSV, to *reading) error {
	content, name, err := read(ctx, s, from.Output)
	if err != nil {
		return err
	}
	rows := csv.NewReader(bytes.NewReader(content))
	if from.Separator != "" {
		rows.Comma = rune(from.Separator[0])
	}
	head, err := rows.Read()
	if err == io.EOF {
		return fmt.Errorf("%s: it is empty, and not even has a head", name)
	}
	if err != nil {
		return broken(name, err)
	}
	if err := headOf(name, head, to.kind); err != nil {
		return err
	}
	for {
		row, err := rows.Read()
		switch {
		case err == io.EOF:
			return nil
		case errors.Is(err, csv.ErrFieldCount):
			line, _ := rows.FieldPos(0)
			to.fault(fmt.Sprintf("%s:%d", name, line), fmt.Errorf("it has %d fields, and the head %d", len(row), len(head)))
		case err != nil:
			return broken(name, err)
		default:
			line, _ := rows.FieldPos(0)
			fields := make(Fields, len(row))
			for i, field := range row {
				fields[head[i]] = []string{field}
			}
			to.take(fmt.Sprintf("%s:%d", name, line), fields)
		}
	}
}

// headOf sees that each field that is looked at stands in the head once.
func headOf(name string, head []string, kind *form.Kind) error {
	seen := map[string]int{}
	for _, field := range head {
		seen[field]++
	}
	for _, field := range inOrder(kind.Fields()) {
		if seen[field] != 1 {
			return fmt.Errorf("%s:1: %q stands %d times in the head %q", name, field, seen[field], head)
		}
	}
	return nil
}

// broken tells a fault of CSV with the name and the line.
func broken(name string, err error) error {
	var at *csv.ParseError
	if errors.As(err, &at) {
		return fmt.Errorf("%s:%d: %w", name, at.Line, at.Err)
	}
	return fmt.Errorf("%s: %w", name, err)
}
