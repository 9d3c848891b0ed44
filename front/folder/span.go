package folder

import (
	"encoding/json"
	"errors"
	"fmt"
	"io"
	"os"
	"path/filepath"

	"review-front/frame"
)

// spanName is the file that says which journals a folder has, so that one which is taken away is missed.
const spanName = "journals"

// spanFormat is the version of that file, which older fronts read too: they stop at the journals.
const spanFormat = 2

// span is what it says.
type span struct {
	Kind   string `json:"kind"` // `journals`
	Format int    `json:"format"`
	First  uint64 `json:"first"`  // the number of the first journal that has to stand
	Newest uint64 `json:"newest"` // that of the one in which edits are written
}

// readSpan reads the file, and gives nil where there is none.
func readSpan(path string) (*span, error) {
	name := filepath.Join(path, spanName)
	file, err := os.Open(name)
	if errors.Is(err, os.ErrNotExist) {
		return nil, nil
	}
	if err != nil {
		return nil, fmt.Errorf("the list of journals: %w", err)
	}
	defer file.Close()
	records := frame.NewReader(file, name)
	damage := records.Damage("it isn't a list of journals")
	record, err := records.Next()
	if err != nil {
		return nil, damage
	}
	var s span
	if json.Unmarshal(record, &s) != nil || s.Kind != spanName || s.Format != spanFormat {
		return nil, damage
	}
	if _, err := records.Next(); err != io.EOF {
		return nil, records.Damage("something stands behind the list of journals")
	}
	return &s, nil
}

// same says whether two lists are the same, or there is none.
func (s *span) same(other *span) bool {
	if s == nil || other == nil {
		return s == other
	}
	return *s == *other
}

// writeSpan says on disk which journals there are.
func (f *Folder) writeSpan(first, newest uint64) error {
	record, err := json.Marshal(span{Kind: spanName, Format: spanFormat, First: first, Newest: newest})
	if err != nil {
		return fmt.Errorf("the list of journals: %w", err)
	}
	file, err := f.Replace(spanName, frame.Append(nil, record))
	if err != nil {
		return fmt.Errorf("the list of journals: %w", err)
	}
	f.first = first
	return file.Close()
}
