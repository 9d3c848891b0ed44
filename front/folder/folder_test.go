package folder

import (
	"errors"
	"fmt"
	"os"
	"testing"
	"time"
)

// opened is a folder of a test, of which a journal was begun.
func opened(t *testing.T, path string) *Folder {
	t.Helper()
	f, err := Open(path)
	if err != nil {
		t.Fatal(err)
	}
	t.Cleanup(f.Close)
	if _, err := f.Recover(0); err != nil {
		t.Fatal(err)
	}
	if err := f.Begin(Head{Program: "a test", AttributeModules: 1, PolicyModules: 1}); err != nil {
		t.Fatal(err)
	}
	return f
}

// edit appends so many edits.
func (f *Folder) edit(t *testing.T, count int) {
	t.Helper()
	for ; count > 0; count-- {
		serial := f.Last() + 1
		line := []byte(fmt.Sprintf(`{"edit":%d}`, serial))
		if err := f.Append([]Entry{{Time: time.Now(), By: "eve", Serial: serial, Line: line}}); err != nil {
			t.Fatal(err)
		}
	}
}

// TestTrim keeps the snapshots that are needed, and the two newest, and the journals behind the first of them.
func TestTrim(t *testing.T) {
	path := t.TempDir()
	f := opened(t, path)
	for serial := uint64(10); serial <= 50; serial += 10 {
		f.edit(t, 10)
		if err := f.Keep(&Snapshot{Serial: serial, Lines: [][]byte{[]byte("a")}}); err != nil {
			t.Fatal(err)
		}
		if err := f.Rotate(); err != nil {
			t.Fatal(err)
		}
	}
	future := time.Now().Add(time.Hour)
	for _, one := range []struct {
		needed    uint64
		before    time.Time
		snapshots string
		journals  string
	}{
		{9, time.Time{}, "[10 20 30 40 50]", "[1 11 21 31 41 51]"},
		{25, time.Time{}, "[20 30 40 50]", "[1 11 21 31 41 51]"},
		{30, time.Now().Add(-time.Hour), "[30 40 50]", "[1 11 21 31 41 51]"},
		{30, future, "[30 40 50]", "[31 41 51]"},
		{99, future, "[40 50]", "[41 51]"},
		{99, future, "[40 50]", "[41 51]"},
	} {
		if err := f.Trim(one.needed, one.before); err != nil {
			t.Fatal(err)
		}
		snapshots, err1 := f.Snapshots()
		journals, err2 := numbered(path, journalName)
		if err1 != nil || err2 != nil || fmt.Sprint(snapshots) != one.snapshots || fmt.Sprint(journals) != one.journals {
			t.Errorf("where %d is needed, there are the snapshots %v and the journals %v", one.needed, snapshots, journals)
		}
	}
	if snapshot, head, err := f.Base(45); err != nil || snapshot.Serial != 40 || head.After != 40 {
		t.Errorf("the snapshot for 45 is %v, %v", snapshot, err)
	}
}

// TestBroken lets the disk fail: what was appended doesn't count, nothing is appended until repair, and then edits go on
// where they were.
func TestBroken(t *testing.T) {
	path := t.TempDir()
	f := opened(t, path)
	f.edit(t, 2)
	failing := true
	f.SyncBy(func(file *os.File) error {
		if failing {
			return errors.New("the disk fails")
		}
		return file.Sync()
	})
	entry := []Entry{{Time: time.Now(), Serial: 3, Line: []byte(`{"lost":3}`)}}
	for i := 0; i < 2; i++ {
		if f.Append(entry) == nil || f.Broken() == nil || f.Repair() == nil || f.Last() != 2 {
			t.Fatalf("an edit counts that isn't on disk; the last is %d", f.Last())
		}
	}
	failing = false
	if err := f.Repair(); err != nil || f.Broken() != nil {
		t.Fatal(err)
	}
	f.edit(t, 1)
	lines := ""
	if err := f.Each(0, func(e Entry, _ Place) error {
		lines += string(e.Line)
		return nil
	}); err != nil || lines != `{"edit":1}{"edit":2}{"edit":3}` {
		t.Errorf("the journal has %s, %v", lines, err)
	}
}

// TestReplace puts a file in the place of another; where it can't, that one stays.
func TestReplace(t *testing.T) {
	f := opened(t, t.TempDir())
	for _, content := range []string{"one", "two"} {
		file, err := f.Replace("other", []byte(content))
		if err != nil {
			t.Fatal(err)
		}
		file.Close()
	}
	if err := os.Mkdir(f.Path("other.aside"), 0o700); err != nil {
		t.Fatal(err)
	}
	if _, err := f.Replace("other", []byte("three")); err == nil {
		t.Error("a file is replaced that can't be written")
	}
	if content, err := os.ReadFile(f.Path("other")); err != nil || string(content) != "two" {
		t.Errorf("the file is %s, %v", content, err)
	}
}
