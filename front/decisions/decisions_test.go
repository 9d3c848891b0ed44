package decisions

import (
	"fmt"
	"os"
	"path/filepath"
	"strings"
	"testing"
	"time"
)

// lengths lists the files of a folder with how many lines each has.
func lengths(t *testing.T, folder string) string {
	t.Helper()
	entries, err := os.ReadDir(folder)
	if err != nil {
		t.Fatal(err)
	}
	var all []string
	for _, entry := range entries {
		content, err := os.ReadFile(filepath.Join(folder, entry.Name()))
		if err != nil {
			t.Fatal(err)
		}
		all = append(all, fmt.Sprintf("%s: %d", entry.Name(), strings.Count(string(content), "\n")))
	}
	return strings.Join(all, ", ")
}

// TestFiles keeps decisions of two days, and more than a file has room for: each file is of one day, and of its size.
func TestFiles(t *testing.T) {
	folder := t.TempDir()
	before := filepath.Join(folder, "2026-02-28.000000041.jsonl")
	if err := os.WriteFile(before, []byte("{}\n{\"cut\":"), 0o600); err != nil {
		t.Fatal(err)
	}
	book, err := Open(folder, 400, nil)
	if err != nil {
		t.Fatal(err)
	}
	night := time.Date(2026, 3, 1, 23, 59, 59, 999_999_000, time.UTC)
	for _, at := range []time.Time{night.Add(-time.Hour), night, night.Add(time.Microsecond), night.Add(time.Second)} {
		book.Keep(Decision{Time: at, By: "ann", Path: "/authorize", Request: []byte(`{"a":1}`), Response: []byte(`{"b":2}`)})
	}
	book.Keep(Decision{Time: night.Add(time.Minute), Request: []byte(`"` + strings.Repeat("x", 500) + `"`), Response: []byte(`1`)})
	book.Keep(Decision{Time: night.Add(time.Hour), Request: []byte(`1`), Response: []byte(`1`)})
	book.Keep(Decision{Time: night.Add(time.Hour), Request: []byte(`{`), Response: []byte(`1`)})
	book.Close()
	const want = "2026-02-28.000000041.jsonl: 1, 2026-03-01.000000042.jsonl: 2, 2026-03-02.000000043.jsonl: 2, " +
		"2026-03-02.000000044.jsonl: 1, 2026-03-02.000000045.jsonl: 1"
	if got := lengths(t, folder); got != want {
		t.Errorf("the files are %s", got)
	}
	if book.Kept() != 6 || book.Lost() != 1 {
		t.Errorf("%d are kept, %d lost", book.Kept(), book.Lost())
	}
}
