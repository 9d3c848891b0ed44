package folder

import (
	"os"
	"path/filepath"
	"testing"
	"time"
)

// TestTogether writes edits that are made all together, and cuts their journal at each byte: they are all there, or none.
func TestTogether(t *testing.T) {
	from := t.TempDir()
	f, err := Open(from)
	if err != nil {
		t.Fatal(err)
	}
	if err := f.Begin(Head{Program: "p"}); err != nil {
		t.Fatal(err)
	}
	entry := func(serial uint64, together int) Entry {
		return Entry{Time: time.Now(), By: "t", Serial: serial, Line: []byte(`{"do":"x"}`), Together: together}
	}
	for _, entries := range [][]Entry{{entry(1, 0)}, {entry(2, 3), entry(3, 0), entry(4, 0), entry(5, 0)}} {
		if err := f.Append(entries); err != nil {
			t.Fatal(err)
		}
	}
	f.Close()
	name := "journal-00000000000000000001"
	content, err := os.ReadFile(filepath.Join(from, name))
	if err != nil {
		t.Fatal(err)
	}
	found := map[uint64]int{}
	for length := len(content); length > len(content)-550 && length > 0; length-- {
		to := t.TempDir()
		for file, written := range map[string][]byte{name: content[:length], spanName: read(t, filepath.Join(from, spanName))} {
			if err := os.WriteFile(filepath.Join(to, file), written, 0o600); err != nil {
				t.Fatal(err)
			}
		}
		last := uint64(0)
		if err := History(to, 0, func(e Entry) error { last = e.Serial; return nil }); err != nil {
			break // it is cut off before what was known to be on disk
		}
		found[last]++
	}
	if found[5] != 1 || found[4] == 0 || found[1] == 0 || found[2]+found[3] > 0 {
		t.Errorf("cut off, the journal ends at these serials so often: %v", found)
	}
}

func read(t *testing.T, name string) []byte {
	t.Helper()
	content, err := os.ReadFile(name)
	if err != nil {
		t.Fatal(err)
	}
	return content
}
