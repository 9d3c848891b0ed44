package folder

import (
	"bytes"
	"path/filepath"
	"testing"

	"review-front/frame"
	"review-front/limits"
)

// limitsIn are the limits of the journal with which a folder begins.
func limitsIn(t *testing.T, path string) limits.Limits {
	t.Helper()
	f, err := Open(path)
	if err != nil {
		t.Fatal(err)
	}
	defer f.Close()
	if _, err := f.Recover(0); err != nil {
		t.Fatal(err)
	}
	return f.Limits()
}

// TestLimits keeps the limits of programs in heads: those of the newest journal count, a copy has those of its last
// edit, and a head of before there were any says standard ones.
func TestLimits(t *testing.T) {
	path, larger := t.TempDir(), limits.Standard
	larger.People = 400
	f, err := Open(path)
	if err != nil {
		t.Fatal(err)
	}
	if _, err := f.Recover(0); err != nil || f.Limits() != (limits.Limits{}) {
		t.Fatalf("an empty folder has the limits %v, %v", f.Limits(), err)
	}
	for _, one := range []limits.Limits{limits.Standard, larger} {
		if err := f.Begin(Head{Program: "a test", Limits: one}); err != nil {
			t.Fatal(err)
		}
		f.edit(t, 5)
		if err := f.Keep(&Snapshot{Serial: f.Last(), Lines: [][]byte{[]byte("a")}}); err != nil {
			t.Fatal(err)
		}
	}
	f.Close()
	if got := limitsIn(t, path); got != larger {
		t.Errorf("the folder has the limits %v", got)
	}
	for serial, want := range map[uint64]limits.Limits{4: limits.Standard, 5: limits.Standard, 6: larger, 9: larger} {
		out := filepath.Join(t.TempDir(), "out")
		if _, err := Copy(path, out, Until{Serial: serial}, false); err != nil {
			t.Fatal(err)
		}
		if got := limitsIn(t, out); got != want {
			t.Errorf("a copy to serial %d has the limits %v", serial, got)
		}
		if serial < 5 {
			continue
		}
		if _, head, err := (&Folder{path: out}).read(5); err != nil || head.Limits != limits.Standard {
			t.Errorf("the snapshot of a copy to serial %d has the limits %v, %v", serial, head.Limits, err)
		}
	}
	old := frame.Append(nil, []byte(`{"kind":"journal","format":1,"program":"a test"}`))
	head, err := readHead(frame.NewReader(bytes.NewReader(old), "a journal"), "journal")
	if err != nil || head.Limits != limits.Standard {
		t.Errorf("an old head says %v, %v", head.Limits, err)
	}
}
