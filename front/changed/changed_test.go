package changed

import (
	"errors"
	"fmt"
	"math/rand"
	"os"
	"path/filepath"
	"testing"
	"time"

	"review-front/folder"
)

// made is an edit that a test makes, with the requests of which it changes the answer.
type made struct {
	Edit
	changes []Change
}

// edits makes edits that change requests at random, some of them many.
func edits(random *rand.Rand, after uint64, count int) (all []made) {
	at := time.Date(2026, 11, 28, 9, 0, 0, 0, time.UTC)
	for i := 0; i < count; i++ {
		at = at.Add(time.Duration(random.Intn(1e9) - 1e8)) // clocks are set back, too
		e := made{Edit: Edit{
			Serial: after + uint64(i) + 1, Time: at, By: fmt.Sprint("eve", random.Intn(3)), Do: "attr.set",
			Entity: fmt.Sprint("ann", random.Intn(9)), Journal: after + 1, Byte: int64(random.Intn(1e6)),
		}}
		many := random.Intn(4)
		if random.Intn(20) == 0 {
			many = 500
		}
		for c := 0; c < many; c++ {
			e.changes = append(e.changes, Change{
				Person: fmt.Sprintf(`p\"%d`, random.Intn(40)), Action: fmt.Sprint("a", random.Intn(4)),
				Resource: fmt.Sprint("r", random.Intn(40)), Before: Decision(random.Intn(7)), After: Decision(random.Intn(7)),
			})
		}
		e.Count, e.Known = uint64(many), true
		all = append(all, e)
	}
	return all
}

// write keeps edits.
func write(t *testing.T, b *Book, all []made) {
	t.Helper()
	for _, e := range all {
		one := e.Edit
		one.Known = e.Count == 0
		pack, err := b.Pack(one, e.Serial-1)
		if err != nil {
			t.Fatal(err)
		}
		reply := []byte(`{"notices":[`)
		for i, c := range e.changes {
			if i > 0 {
				reply = append(reply, ',')
			}
			reply = c.Append(reply, "", "")
		}
		reply = append(reply, `]}`...)
		for len(reply) > 0 && e.Count > 0 { // it comes in parts
			n := 1 + int(e.Serial*7)%50
			if n > len(reply) {
				n = len(reply)
			}
			if _, err := pack.Write(reply[:n]); err != nil {
				t.Fatal(err)
			}
			reply = reply[n:]
		}
		if err := pack.Keep(); err != nil {
			t.Fatal(err)
		}
	}
}

// shown is an edit with what it changed, as a text.
func shown(e *Edit, changes []Change) string {
	return fmt.Sprint(e.Serial, e.Time.UTC(), e.By, e.Do, e.Entity, e.Journal, e.Byte, e.Count, e.Known, changes)
}

// told reads what is kept, and sees that each edit is as it was made, and that those between are told as missing.
func (b *Book) told(t *testing.T, what string, all []made) uint64 {
	t.Helper()
	reached := uint64(0)
	last := all[len(all)-1].Serial
	missing, err := b.Edits(0, last, func(e *Edit) error {
		var changes []Change
		if err := e.Each(func(c Change) error {
			changes = append(changes, c)
			return nil
		}); err != nil {
			return err
		}
		want := all[e.Serial-1]
		if got := shown(e, changes); got != shown(&want.Edit, want.changes) {
			return fmt.Errorf("%s: an edit is told as\n%.300s\nand was\n%.300s", what, got, shown(&want.Edit, want.changes))
		}
		reached++
		return nil
	})
	if err != nil {
		t.Fatal(err)
	}
	for _, gap := range missing {
		reached += gap.Last - gap.After
	}
	if reached != last {
		t.Fatalf("%s: %d edits are told or missing, of %d: %v", what, reached, last, missing)
	}
	if len(missing) == 0 {
		return last
	}
	return missing[0].After
}

// always is a journal that has each edit.
func always(Edit) bool { return true }

// TestKept keeps edits over starts, and reads them.
func TestKept(t *testing.T) {
	path, random := t.TempDir(), rand.New(rand.NewSource(1))
	all := edits(random, 0, 300)
	for from := 0; from < len(all); from += 60 {
		b, dropped := Open(path, 0, always)
		if len(dropped) > 0 {
			t.Fatal(dropped)
		}
		write(t, b, all[from:from+60])
		if last := b.told(t, "all", all); last != uint64(from+60) {
			t.Fatalf("edits up to %d are told", last)
		}
		if err := b.Close(); err != nil {
			t.Fatal(err)
		}
	}
	b, dropped := Open(path, 0, func(e Edit) bool { return e.Serial < 100 })
	if _, missing := b.Missing(0, 300); !missing || len(dropped) == 0 {
		t.Error("what a journal says otherwise is kept")
	}
}

// TestDamaged changes bytes, and cuts at them: an edit is told as it was, or as missing.
func TestDamaged(t *testing.T) {
	path, random := t.TempDir(), rand.New(rand.NewSource(2))
	all := edits(random, 0, 40)
	b, _ := Open(path, 0, always)
	write(t, b, all)
	if err := b.Close(); err != nil {
		t.Fatal(err)
	}
	name := filepath.Join(path, fmt.Sprintf("%s%0*d", folder.ChangesName, digits, 1))
	content, err := os.ReadFile(name)
	if err != nil {
		t.Fatal(err)
	}
	try := func(what string, changed []byte) {
		t.Helper()
		if err := os.WriteFile(name, changed, 0o600); err != nil {
			t.Fatal(err)
		}
		b, dropped := Open(path, 0, always)
		if last := b.told(t, what, all); last == 40 {
			t.Fatalf("%s isn't seen: %v", what, dropped)
		}
		if behind, missing := b.Missing(0, 40); !missing || behind > 39 {
			t.Fatalf("%s: nothing is made again", what)
		}
		_ = b.Close()
	}
	for at := 0; at < len(content); at += 151 {
		changed := append([]byte(nil), content...)
		changed[at] ^= 1 << (at % 8)
		try(fmt.Sprint("byte ", at), changed)
		try(fmt.Sprint("cut at ", at), content[:at])
	}
	// Damage that comes while it is read is told, and what is sound stays.
	if err := os.WriteFile(name, content, 0o600); err != nil {
		t.Fatal(err)
	}
	b, _ = Open(path, 0, always)
	if err := b.leave(); err != nil {
		t.Fatal(err)
	}
	content[len(content)/2] ^= 1
	if err := os.WriteFile(name, content, 0o600); err != nil {
		t.Fatal(err)
	}
	b.told(t, "damage while it is read", all)
	if behind, missing := b.Missing(0, 40); !missing || behind == 0 {
		t.Errorf("behind damage edits are made again from serial %d on: %v", behind, missing)
	}
}

// TestParted begins another file where one is long, and takes old ones away.
func TestParted(t *testing.T) {
	path, random := t.TempDir(), rand.New(rand.NewSource(3))
	b, _ := Open(path, time.Hour, always)
	all := edits(random, 0, 2000)
	write(t, b, all)
	if b.told(t, "all", all); len(b.parts) < 2 {
		t.Fatalf("there are %d files", len(b.parts))
	}
	files := len(b.parts)
	if err := b.Trim(b.parts[0].ends.Add(1)); err != nil || len(b.parts) >= files {
		t.Errorf("of %d files %d are left: %v", files, len(b.parts), err)
	}
	extent, _ := b.Extent()
	if at, known := b.Before(all[extent.After+10].Time); !known || at > extent.After+10 {
		t.Errorf("before edit %d stands %d: %v", extent.After+11, at, known)
	}
	if _, known := b.Before(all[0].Time); known {
		t.Error("the time of what was taken away is known")
	}
}

// TestOtherReply has the program answer otherwise than it does.
func TestOtherReply(t *testing.T) {
	for _, reply := range []string{`{"refused":15}`, `{"notices":[`, `{"notices":[{"action":"a"`, `{"notices":[]}x`, ``} {
		b, _ := Open(t.TempDir(), 0, always)
		pack, err := b.Pack(Edit{Serial: 1, Count: 1, Time: time.Now()}, 0)
		if err != nil {
			t.Fatal(err)
		}
		_, wrote := pack.Write([]byte(reply))
		if _, other := pack.Other(); !other && wrote == nil {
			t.Errorf("%s is taken", reply)
		}
	}
	b, _ := Open(t.TempDir(), 0, always)
	pack, err := b.Pack(Edit{Serial: 1, Count: 2, Time: time.Now()}, 0)
	if err == nil {
		_, err = pack.Write([]byte(`{"notices":[{"action":"a","after":"Permit","before":null,"person":"p","resource":"r"}]}`))
	}
	if err == nil {
		err = pack.Keep()
	}
	if err == nil || errors.Is(err, errMore) {
		t.Errorf("one request of two is taken: %v", err)
	}
}
