package folder

import (
	"bytes"
	"context"
	"errors"
	"fmt"
	"math"
	"os"
	"path/filepath"
	"testing"

	"review-front/frame"
)

// begun opens a folder as a start does, reads all of it, and gives what was dropped and the serial of the last edit.
func begun(path string) (*Torn, uint64, error) {
	f, err := Open(path)
	if err != nil {
		return nil, 0, err
	}
	defer f.Close()
	snapshots, err := f.Snapshots()
	if err != nil {
		return nil, 0, err
	}
	newest := uint64(0)
	if len(snapshots) > 0 {
		newest = snapshots[len(snapshots)-1]
	}
	torn, err := f.Recover(newest)
	if err != nil {
		return nil, 0, err
	}
	snapshot, _, err := f.Base(f.Last())
	if err == nil {
		err = f.Each(snapshot.Serial, func(Entry, Place) error { return nil })
	}
	if err == nil {
		err = f.CheckOld(context.Background())
	}
	return torn, f.Last(), err
}

// chained is a folder with two old journals and a newest one, whose edits came to the disk two by two, and of snapshots
// of the old ones.
func chained(t *testing.T) string {
	t.Helper()
	path := t.TempDir()
	f := opened(t, path)
	for serial := uint64(4); serial <= 8; serial += 4 {
		f.pairs(t, 2)
		if err := f.Keep(&Snapshot{Serial: serial, Lines: [][]byte{[]byte("a"), []byte("b")}}); err != nil {
			t.Fatal(err)
		}
		if err := f.Rotate(); err != nil {
			t.Fatal(err)
		}
	}
	f.pairs(t, 2)
	f.Close()
	return path
}

// pairs appends edits, two together.
func (f *Folder) pairs(t *testing.T, count int) {
	t.Helper()
	for ; count > 0; count-- {
		var pair []Entry
		for i := uint64(1); i <= 2; i++ {
			line := []byte(fmt.Sprintf(`{"do":"person.add","name":"%d"}`, f.Last()+i))
			pair = append(pair, Entry{By: "eve", Serial: f.Last() + i, Line: line})
		}
		if err := f.Append(pair); err != nil {
			t.Fatal(err)
		}
	}
}

// files are the contents of a folder by name.
func files(t *testing.T, path string) map[string][]byte {
	t.Helper()
	all := map[string][]byte{}
	entries, err := os.ReadDir(path)
	if err != nil {
		t.Fatal(err)
	}
	for _, entry := range entries {
		if all[entry.Name()], err = os.ReadFile(filepath.Join(path, entry.Name())); err != nil {
			t.Fatal(err)
		}
	}
	return all
}

// laid is a folder that has these contents.
func laid(t *testing.T, all map[string][]byte) string {
	t.Helper()
	path, err := os.MkdirTemp(t.TempDir(), "")
	if err != nil {
		t.Fatal(err)
	}
	for name, content := range all {
		if err := os.WriteFile(filepath.Join(path, name), content, 0o600); err != nil {
			t.Fatal(err)
		}
	}
	return path
}

// without is some contents, of which one has others, or isn't there.
func without(all map[string][]byte, changed string, content []byte) map[string][]byte {
	other := map[string][]byte{}
	for name, known := range all {
		other[name] = known
	}
	if other[changed] = content; content == nil {
		delete(other, changed)
	}
	return other
}

// judged sees that a start of a folder, `verify` and a copy that mends agree: it is damage that is told by a file, or a
// tail, and the copy has the edits up to there. It gives what was dropped, and the serial that a start has.
func judged(t *testing.T, what string, all map[string][]byte) (torn *Torn, last uint64, damage error) {
	t.Helper()
	path := laid(t, all)
	defer os.RemoveAll(path)
	found, err := Verify(path)
	if err != nil {
		t.Fatalf("%s: %v", what, err)
	}
	out := filepath.Join(t.TempDir(), "out")
	copied, mended := Copy(path, out, Until{Serial: math.MaxUint64}, true)
	for name, content := range files(t, path) {
		if !bytes.Equal(content, all[name]) {
			t.Fatalf("%s: %s was changed by a look", what, name)
		}
	}
	torn, last, err = begun(path)
	var told *frame.Damage
	if err != nil && !errors.As(err, &told) {
		t.Fatalf("%s: the start says %v", what, err)
	}
	if (err != nil) != (len(found.Faults) > 0) || err == nil && (last != found.Ends || (torn != nil) != (found.Tail != nil)) {
		t.Fatalf("%s: a start gives serial %d, %v, %v, and a look %v", what, last, torn, err, found)
	}
	if mended == nil {
		if _, ends, err := begun(out); err != nil || ends != copied.Ends || copied.Ends > 12 {
			t.Fatalf("%s: the copy has %d, and ends at %d: %v", what, copied.Ends, ends, err)
		}
		if err == nil && copied.Ends != last {
			t.Fatalf("%s: the copy ends at %d, and a start at %d", what, copied.Ends, last)
		}
	} else if !errors.As(mended, &told) {
		t.Fatalf("%s: the copy says %v", what, mended)
	}
	return torn, last, err
}

// stride is of how many bytes one is changed, or all.
func stride() int {
	if os.Getenv("FRONT_SESSIONS") == "1" {
		return 1
	}
	return 31
}

// TestFlips changes each byte of each file: the start ends with file and place, or drops edits behind the last byte that
// was known to be on disk, and says so.
func TestFlips(t *testing.T) {
	all := files(t, chained(t))
	newest := fmt.Sprintf("journal-%020d", 9)
	tails := 0
	for name, content := range all {
		for at := 0; at < len(content); at += stride() {
			changed := append([]byte(nil), content...)
			changed[at] ^= 1 << (at % 8)
			what := fmt.Sprintf("byte %d of %s", at, name)
			torn, last, err := judged(t, what, without(all, name, changed))
			switch {
			case err != nil:
			case name != newest || torn == nil || last < 10 || last > 11:
				t.Fatalf("%s: the start has serial %d, and drops %v", what, last, torn)
			default:
				tails++
			}
		}
	}
	if tails == 0 {
		t.Error("no tail was dropped")
	}
}

// TestFiles takes files away, exchanges, doubles, cuts and zeroes them, and puts those of another folder in their place.
func TestFiles(t *testing.T) {
	all, other := files(t, chained(t)), files(t, chained(t))
	journal := func(number int) string { return fmt.Sprintf("journal-%020d", number) }
	snapshot := func(serial int) string { return fmt.Sprintf("snapshot-%020d", serial) }
	for what, one := range map[string]struct {
		all  map[string][]byte
		ends bool // whether the start does
	}{
		"nothing":                   {all, false},
		"no old journal":            {without(all, journal(1), nil), true},
		"no journal in the middle":  {without(all, journal(5), nil), true},
		"no newest journal":         {without(all, journal(9), nil), true},
		"no list":                   {without(all, spanName, nil), true},
		"no old snapshot":           {without(all, snapshot(4), nil), false},
		"no newest snapshot":        {without(all, snapshot(8), nil), false},
		"an old journal of another": {without(all, journal(1), other[journal(1)]), true},
		"a newest one of another":   {without(all, journal(9), other[journal(9)]), true},
		"a snapshot of another":     {without(all, snapshot(4), other[snapshot(4)]), true},
		"two exchanged":             {without(without(all, journal(1), all[journal(5)]), journal(5), all[journal(1)]), true},
		"a journal doubled":         {without(all, journal(13), all[journal(9)]), true},
		"a journal doubled between": {without(all, journal(7), all[journal(5)]), true},
		"a snapshot doubled":        {without(all, snapshot(12), all[snapshot(8)]), true},
		"an empty old journal":      {without(all, journal(5), []byte{}), true},
		"an empty newest journal":   {without(all, journal(9), []byte{}), true},
		"an empty list":             {without(all, spanName, []byte{}), true},
		"a journal being begun":     {without(all, journal(13), headAlone(t, 13)), false},
	} {
		if _, last, err := judged(t, what, one.all); (err != nil) != one.ends || err == nil && last != 12 {
			t.Errorf("%s: the start has serial %d, and says %v", what, last, err)
		}
	}
	for name, content := range all {
		for at := 1; at < len(content); at += 4 * stride() {
			zeroed := append(append([]byte(nil), content[:at]...), make([]byte, len(content)-at)...)
			for how, changed := range map[string][]byte{"cut": content[:at], "zeroed": zeroed} {
				what := fmt.Sprintf("%s from byte %d on %s", name, at, how)
				if torn, last, err := judged(t, what, without(all, name, changed)); err == nil && (name != journal(9) ||
					torn == nil && how == "zeroed" || last > 11) {
					t.Errorf("%s: the start has serial %d, and drops %v", what, last, torn)
				}
			}
		}
	}
}

// headAlone is a journal without an edit.
func headAlone(t *testing.T, number uint64) []byte {
	t.Helper()
	record, err := headRecord(Head{Kind: "journal", After: number - 1})
	if err != nil {
		t.Fatal(err)
	}
	return record
}

// TestOutOfOrder has a crash after which the first of two edits that came to the disk together isn't there, and the
// second one is: both are dropped, and told. Once a later record says that they were on disk, it is damage.
func TestOutOfOrder(t *testing.T) {
	path := chained(t)
	name := fmt.Sprintf("journal-%020d", 9)
	all := files(t, path)
	records := bytes.SplitAfter(all[name], []byte("\n"))
	for _, one := range []struct {
		lost int // which record, the head being 0
		ends bool
	}{{3, false}, {1, true}, {2, true}} {
		place := len(bytes.Join(records[:one.lost], nil))
		content := append([]byte(nil), all[name]...)
		copy(content[place:], make([]byte, len(records[one.lost])))
		torn, last, err := judged(t, fmt.Sprint("record ", one.lost), without(all, name, content))
		if one.ends != (err != nil) || err == nil && (last != 10 || torn == nil || torn.Place != int64(place)) {
			t.Errorf("record %d: the start has serial %d, drops %v, and says %v", one.lost, last, torn, err)
		}
	}
}

// TestFirstFormat goes on from a journal and a snapshot of the first format, which have no chain.
func TestFirstFormat(t *testing.T) {
	old := func(kind string, lines int, records ...string) []byte {
		content := frame.Append(nil, []byte(fmt.Sprintf(`{"kind":%q,"format":1,"after":%d,"lines":%d}`, kind, 2*lines, lines)))
		for _, record := range records {
			content = frame.Append(content, []byte(record))
		}
		return content
	}
	entry := func(serial int) string {
		return fmt.Sprintf(`{"time":"2026-01-01T00:00:00Z","by":"eve","serial":%d,"changes":0,"line":{}}`, serial)
	}
	path := laid(t, map[string][]byte{
		fmt.Sprintf("journal-%020d", 1): old("journal", 0, entry(1), entry(2)), fmt.Sprintf("snapshot-%020d", 2): old("snapshot", 1, "a"),
	})
	f, err := Open(path)
	if err != nil {
		t.Fatal(err)
	}
	if _, err := f.Recover(2); err != nil || f.Chained() || f.Last() != 2 {
		t.Fatalf("the serial is %d, chained %v: %v", f.Last(), f.Chained(), err)
	}
	if err := f.Begin(Head{}); err != nil {
		t.Fatal(err)
	}
	f.pairs(t, 1)
	f.Close()
	if torn, last, err := begun(path); torn != nil || last != 4 || err != nil {
		t.Fatalf("the serial is %d, %v, %v", last, torn, err)
	}
	all := files(t, path)
	name := fmt.Sprintf("journal-%020d", 1)
	changed := bytes.Replace(all[name], []byte("eve"), []byte("max"), 1)
	if _, _, err := judged(t, "an edit of the first format", without(all, name, changed)); err == nil {
		t.Error("a change of an old journal isn't seen")
	}
}

// TestHistoryGap tells the edits before a journal that isn't there, and then that.
func TestHistoryGap(t *testing.T) {
	all := files(t, chained(t))
	for number, want := range map[int]int{1: 8, 5: 4, 9: 8} {
		told := 0
		gone := without(all, fmt.Sprintf("journal-%020d", number), nil)
		err := History(laid(t, gone), 0, func(Entry) error {
			told++
			return nil
		})
		var damage *frame.Damage
		if !errors.As(err, &damage) || told != want {
			t.Errorf("without journal %d %d edits are told: %v", number, told, err)
		}
	}
}
