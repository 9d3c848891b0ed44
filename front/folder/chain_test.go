package folder

import (
	"bytes"
	"crypto/sha256"
	"encoding/hex"
	"fmt"
	"math"
	"os"
	"path/filepath"
	"testing"
	"time"

	"review-front/frame"
)

// chainsOf reads the chain behind each edit of a folder.
func chainsOf(t *testing.T, path string) *Chains {
	t.Helper()
	serials := map[uint64]bool{}
	for serial := uint64(0); serial < 100; serial++ {
		serials[serial] = true
	}
	chains, err := ReadChains(path, serials)
	if err != nil {
		t.Fatal(err)
	}
	return chains
}

// TestChainOfCopy sees that copies of a folder have its chain: one that ends before, one of a folder whose first
// journals were taken away, and one that begins at a snapshot behind damage.
func TestChainOfCopy(t *testing.T) {
	path := chained(t)
	all := chainsOf(t, path)
	if len(all.At) != 13 || all.At[0] != (Chain{}) || all.At[11] == all.At[12] {
		t.Fatalf("the chain is %v", all.At)
	}
	same := func(what, folder string, begins, ends uint64) {
		t.Helper()
		got := chainsOf(t, folder)
		if got.Begins != begins || got.Ends != ends {
			t.Errorf("%s has the edits behind %d, up to %d", what, got.Begins, got.Ends)
		}
		for serial := begins; serial <= ends; serial++ {
			if got.At[serial] != all.At[serial] {
				t.Errorf("%s has another chain at serial %d", what, serial)
			}
		}
	}
	copied := filepath.Join(t.TempDir(), "copy")
	if _, err := Copy(path, copied, Until{Serial: 7}, false); err != nil {
		t.Fatal(err)
	}
	same("a copy up to serial 7", copied, 0, 7)
	damaged := files(t, path)
	old := fmt.Sprintf("journal-%020d", 1)
	damaged[old] = append([]byte(nil), damaged[old]...)
	damaged[old][len(damaged[old])/2] ^= 1
	mended := filepath.Join(t.TempDir(), "mended")
	if _, err := Copy(laid(t, damaged), mended, Until{Serial: math.MaxUint64}, true); err != nil {
		t.Fatal(err)
	}
	same("a copy that begins behind damage", mended, 4, 12)
	f, err := Open(path)
	if err != nil {
		t.Fatal(err)
	}
	if _, err := f.Recover(8); err != nil {
		t.Fatal(err)
	}
	if err := f.Begin(Head{}); err != nil {
		t.Fatal(err)
	}
	if err := f.Trim(8, time.Now().Add(time.Hour)); err != nil {
		t.Fatal(err)
	}
	if serial, chain := f.Begun(); serial != 4 || chain != all.At[4] {
		t.Errorf("the first journal begins at serial %d", serial)
	}
	if serial, chain := f.Head(); serial != 12 || chain != all.At[12] {
		t.Errorf("the head is of serial %d", serial)
	}
	f.Close()
	same("a folder whose first journal is gone", path, 4, 12)
	late := filepath.Join(t.TempDir(), "late")
	if _, err := Copy(path, late, Until{Serial: 11}, false); err != nil {
		t.Fatal(err)
	}
	same("a copy of that", late, 4, 11)
}

// olderJournal is a journal without a chain, as fronts before this one wrote it.
func olderJournal(format, after int, by string, before *Part) []byte {
	head := fmt.Sprintf(`{"kind":"journal","format":%d,"after":%d`, format, after)
	if before != nil {
		head += fmt.Sprintf(`,"before":{"journal":%d,"serial":%d,"bytes":%d,"sum":%q}`, before.Journal, before.Serial,
			before.Bytes, before.Sum)
	}
	content := frame.Append(nil, []byte(head+"}"))
	for serial := after + 1; serial <= after+3; serial++ {
		synced := ""
		if format > first {
			synced = fmt.Sprintf(`"synced":%d,`, len(content))
		}
		content = frame.Append(content, []byte(fmt.Sprintf(
			`{%s"time":"2026-01-01T00:00:00Z","by":%q,"serial":%d,"changes":0,"line":{}}`, synced, by, serial)))
	}
	return content
}

// TestOlderJournals goes on from journals without a chain: the first with a chain says what each was, so that a change of
// it is seen, also with right sums.
func TestOlderJournals(t *testing.T) {
	names := []string{fmt.Sprintf("journal-%020d", 1), fmt.Sprintf("journal-%020d", 4)}
	for format := first; format < chainedFrom; format++ {
		made := map[string][]byte{names[0]: olderJournal(format, 0, "eve", nil)}
		var before *Part
		if format > first {
			sum := sha256.Sum256(made[names[0]])
			before = &Part{Journal: 1, Serial: 3, Bytes: int64(len(made[names[0]])), Sum: hex.EncodeToString(sum[:])}
			made[spanName] = frame.Append(nil, []byte(`{"kind":"journals","format":2,"first":1,"newest":4}`))
		}
		made[names[1]] = olderJournal(format, 3, "eve", before)
		path := laid(t, made)
		f := opened(t, path)
		if serial, chain := f.Head(); serial != 6 || chain == (Chain{}) {
			t.Fatalf("format %d: the chain begins at serial %d with %v", format, serial, chain)
		}
		f.pairs(t, 2)
		_, head := f.Head()
		f.Close()
		if chains := chainsOf(t, path); chains.Begins != 6 || chains.At[10] != head {
			t.Fatalf("format %d: the chain begins behind serial %d", format, chains.Begins)
		}
		torn, last, err := begun(path)
		if torn != nil || last != 10 || err != nil {
			t.Fatalf("format %d: the serial is %d, %v, %v", format, last, torn, err)
		}
		all := files(t, path)
		for i, name := range names {
			if !bytes.Equal(all[name], made[name]) {
				t.Errorf("format %d: %s was changed", format, name)
			}
			changed := olderJournal(format, 3*i, "max", map[int]*Part{1: before}[i])
			if _, _, err := judged(t, "another journal", without(all, name, changed)); err == nil {
				t.Errorf("format %d: a change of %s isn't seen", format, name)
			}
		}
	}
}

// BenchmarkAppend says how long an edit takes without the disk, and how many bytes it has.
func BenchmarkAppend(b *testing.B) {
	f, err := Open(b.TempDir())
	if err != nil {
		b.Fatal(err)
	}
	defer f.Close()
	f.SyncBy(func(*os.File) error { return nil })
	if err := f.Begin(Head{}); err != nil {
		b.Fatal(err)
	}
	line := []byte(`{"do":"attr.set","category":"AccessSubject","entity":"ann","attribute":"role","type":"string",` +
		`"values":["it"]}`)
	for i := 0; i < b.N; i++ {
		if err := f.Append([]Entry{{Time: time.Now(), By: "eve", Serial: uint64(i + 1), Line: line}}); err != nil {
			b.Fatal(err)
		}
	}
	b.ReportMetric(float64(f.size)/float64(b.N), "B/edit")
}
