package main

import (
	"io"
	"path/filepath"
	"strings"
	"testing"
)

// TestEnding ends the front while somebody listens, who has heard all, and somebody sends lines: both are told the end,
// lines that came whole have their replies, and a snapshot is left from which the next start begins.
func TestEnding(t *testing.T) {
	path := t.TempDir()
	f := begin(t, path)
	f.accept(clinic(t)...)
	heard := f.listen()
	heard.next(t)
	s := f.connect("/lines")
	if _, ok := accepted(s.ask(t, `{"do":"person.add","name":"extra"}`)); !ok {
		t.Fatal("an edit isn't accepted")
	}
	heard.next(t)
	table := f.must("/table")
	if status := f.stop(); status != 0 {
		t.Fatalf("the front ends with %d:\n%s", status, f.log())
	}
	if reply, err := s.receive(); err != nil || !strings.Contains(reply, "stopping") {
		t.Errorf("the stream is told %s, %v", reply, err)
	}
	if _, err := s.receive(); err != io.EOF {
		t.Errorf("the stream ends with %v", err)
	}
	for range heard.events {
	}
	if files, err := filepath.Glob(filepath.Join(path, "snapshot-*")); err != nil || len(files) != 1 {
		t.Errorf("there are the snapshots %v", files)
	}
	f = begin(t, path)
	if !strings.Contains(f.log(), `"replayed":0`) {
		t.Errorf("the start replays edits:\n%s", f.log())
	}
	if f.must("/table") != table {
		t.Error("the table is another one")
	}
}
