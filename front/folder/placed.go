package folder

import (
	"fmt"
	"io"
	"os"

	"review-front/frame"
)

// At reads the edits of the record that stands in a journal from a byte on: one, or several that are made all together.
func At(path string, journal uint64, place int64) ([]Entry, error) {
	name := named(path, journalName, journal)
	file, err := os.Open(name)
	if err != nil {
		return nil, fmt.Errorf("a journal: %w", err)
	}
	defer file.Close()
	if _, err := file.Seek(place, io.SeekStart); err != nil {
		return nil, fmt.Errorf("a journal: %w", err)
	}
	record, err := frame.NewReader(file, name).Next()
	if err != nil {
		return nil, err
	}
	entries, err := readEntries(record)
	for i := range entries {
		entries[i].Journal, entries[i].Byte = journal, place
	}
	return entries, err
}

// At reads the edits of a record of this folder.
func (f *Folder) At(journal uint64, place int64) ([]Entry, error) { return At(f.path, journal, place) }

// Begins is the serial before the first edit that the journals have.
func (f *Folder) Begins() (uint64, error) {
	numbers, err := numbered(f.path, journalName)
	if err != nil || len(numbers) == 0 {
		return 0, err
	}
	return numbers[0] - 1, nil
}
