package marks

import (
	"bytes"
	"errors"
	"fmt"
	"os"
	"path/filepath"
	"reflect"
	"testing"
	"time"

	"review-front/frame"
	"review-front/ladder"
)

// plain is a folder whose files are replaced as they come.
type plain string

func (p plain) Path(name string) string { return filepath.Join(string(p), name) }

func (p plain) Replace(name string, content []byte) (*os.File, error) {
	if err := os.WriteFile(p.Path(name), content, 0o600); err != nil {
		return nil, err
	}
	return os.OpenFile(p.Path(name), os.O_RDWR, 0)
}

// again is a book of the same folder, as after a start.
func again(t *testing.T, folder Folder, last uint64) *Book {
	t.Helper()
	b := New(folder)
	if _, err := b.Recover(last); err != nil {
		t.Fatal(err)
	}
	return b
}

// TestKept keeps marks of clients and of the program over starts: the last of each counts, who has gone isn't there,
// and a mark behind the journal's end doesn't count.
func TestKept(t *testing.T) {
	folder := plain(t.TempDir())
	if b := again(t, folder, 9); len(b.Clients()) != 0 || len(b.Rungs()) != 0 {
		t.Error("there are marks without a file")
	}
	b := New(folder)
	now := time.Now().UTC().Round(0)
	for i, marks := range [][]Mark{{{"a", 0, 1}, {"b", 3, 2}}, {{"a", 0, 5}, {"a", 1, 4}}, {{"c", 0, 6}}, {{"d", 0, 7}}} {
		if err := b.Append(marks); err != nil {
			t.Fatal(i, err)
		}
	}
	for _, name := range []string{"c", "e"} {
		if err := b.Came(name); err != nil {
			t.Fatal(err)
		}
	}
	rungs := []ladder.Rung{{Serial: 2, Time: now}, {Serial: 7, Time: now, Spent: ladder.Spent{Changes: 3, Took: 4}}}
	for i := range rungs {
		if err := b.Stood(rungs[:i+1], rungs[i]); err != nil {
			t.Fatal(err)
		}
	}
	for _, name := range []string{"c", "nobody"} {
		if err := b.Gone(name); err != nil {
			t.Fatal(err)
		}
	}
	b.Close()
	want := map[string]map[int]uint64{"a": {0: 5, 1: 4}, "b": {3: 2}, "e": {}}
	for round := 0; round < 3; round++ {
		b := again(t, folder, 6)
		if got := b.Clients(); !reflect.DeepEqual(got, want) || !reflect.DeepEqual(b.Rungs(), rungs[:1]) {
			t.Fatalf("round %d: the marks are %v and %v", round, got, b.Rungs())
		}
		if err := b.Append([]Mark{{"b", 3, 2}}); err != nil { // it is written anew
			t.Fatal(err)
		}
		b.Close()
	}
}

// TestAnew writes so many marks that the file is written anew: it stays short, and all is there.
func TestAnew(t *testing.T) {
	folder := plain(t.TempDir())
	b := New(folder)
	for i := uint64(0); i < 20_000; i++ {
		if err := b.Gone("nobody"); err != nil {
			t.Fatal(err)
		}
		if err := b.write([]record{{Mark: &Mark{Client: "a", Serial: i}}}, false); err != nil {
			t.Fatal(err)
		}
		b.take(Mark{Client: "a", Serial: i})
	}
	if b.size > 2*slack {
		t.Errorf("the file has %d bytes", b.size)
	}
	if got := again(t, folder, 1<<20).Clients(); fmt.Sprint(got) != "map[a:map[0:19999]]" {
		t.Errorf("the marks are %v", got)
	}
}

// TestTorn cuts the file at each byte, and changes each: what stands before is there. A byte that is changed is damage
// where a record behind it says that it was on disk, and else was lost with the power, as what was written some time
// is.
func TestTorn(t *testing.T) {
	folder := plain(t.TempDir())
	b := New(folder)
	for i := uint64(0); i < 3; i++ {
		if err := b.Append([]Mark{{"a", int(i), i}}); err != nil {
			t.Fatal(err)
		}
	}
	onDisk := int(b.size)
	for i := 3; i < 6; i++ {
		if err := b.write([]record{{Mark: &Mark{"a", i, 5}}}, false); err != nil {
			t.Fatal(err)
		}
	}
	whole, err := os.ReadFile(folder.Path(fileName))
	if err != nil {
		t.Fatal(err)
	}
	head := bytes.IndexByte(whole, '\n') + 1
	recover := func(content []byte) (int, *frame.Damage) {
		if err := os.WriteFile(folder.Path(fileName), content, 0o600); err != nil {
			t.Fatal(err)
		}
		b, damage := New(folder), (*frame.Damage)(nil)
		torn, err := b.Recover(9)
		if err != nil && !errors.As(err, &damage) || torn != nil && (int(torn.Place) > len(content) || torn.Bytes == 0) {
			t.Fatalf("it is dropped as %v, %v", torn, err)
		}
		return len(b.Clients()["a"]), damage
	}
	for at := head; at < len(whole); at++ {
		sound := whole[:bytes.LastIndexByte(whole[:at], '\n')+1]
		if got, damage := recover(whole[:at]); damage != nil || got != bytes.Count(sound, []byte(`"mark":`)) {
			t.Errorf("cut at byte %d there are %d marks, %v", at, got, damage)
		}
		changed := append([]byte(nil), whole...)
		changed[at] ^= 1
		if got, damage := recover(changed); (damage != nil) != (at < onDisk) || damage == nil && got < 3 {
			t.Errorf("changed at byte %d there are %d marks, %v", at, got, damage)
		}
	}
	for at := 0; at < head; at++ {
		if _, damage := recover(whole[:at]); damage == nil {
			t.Errorf("the head is cut at byte %d", at)
		}
	}
}
