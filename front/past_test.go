package main

import (
	"bytes"
	"encoding/json"
	"fmt"
	"math/rand"
	"os"
	"path/filepath"
	"strconv"
	"strings"
	"syscall"
	"testing"

	"review-front/folder"
)

// past is a front with edits, and each table that there was.
type past struct {
	*front
	tables  *tables
	replies map[uint64]string // what was answered to `table`
	entries map[uint64]folder.Entry
	serial  uint64
}

// edited has a front make edits, the front and the program be killed in between, and gives all tables.
func edited(t *testing.T, path string, edits int, words ...string) *past {
	t.Helper()
	p := &past{front: begin(t, path, words...), entries: map[uint64]folder.Entry{}}
	p.accept(clinic(t)...)
	random := rand.New(rand.NewSource(7))
	for i := 0; i < edits; i++ {
		p.lines(randomEdit(random, i%16))
		switch {
		case i%700 == 300:
			p.front.kill()
			p.front = begin(t, path, words...)
		case i%700 == 600:
			before := len(p.programs())
			p.killProgram()
			p.another(before)
			eventually(t, "the program answers", func() bool { return p.metric("review_front_ready") == 1 })
		}
	}
	p.tables, p.replies = newTables(t), map[uint64]string{}
	w := newTwin(t)
	note := func(serial uint64) {
		reply := w.ask(`{"do":"table"}`)
		p.tables.add(serial, reply)
		p.replies[serial] = reply
	}
	note(0)
	err := folder.History(path, 0, func(e folder.Entry) error {
		w.ask(string(e.Line))
		note(e.Serial)
		e.Line = append([]byte(nil), e.Line...)
		p.entries[e.Serial], p.serial = e, e.Serial
		return nil
	})
	if err != nil {
		t.Fatal(err)
	}
	return p
}

// learned waits until it is known what all edits changed.
func (p *past) learned() {
	p.t.Helper()
	eventually(p.t, "it is known what edits changed", func() bool {
		return strings.HasSuffix(p.must("/edits?since=0&count=1&kind=none"), `,"unknown":[]}`)
	})
}

// toldEdit is an edit, as /edits tells it.
type toldEdit struct {
	By, Entity, Kind, Time string
	Changed                []json.RawMessage
	Line                   json.RawMessage
	Changes, Serial        uint64
}

// compare compares each edit that is told with the journal, and what it changed with the tables before and after.
func (p *past) compare() {
	p.t.Helper()
	seen := uint64(0)
	for since, more := uint64(0), true; more; since = seen {
		var page struct {
			Edits []toldEdit
			More  bool
		}
		if err := json.Unmarshal([]byte(p.must(fmt.Sprintf("/edits?since=%d&count=150", since))), &page); err != nil {
			p.t.Fatal(err)
		}
		for _, e := range page.Edits {
			entry := p.entries[seen+1]
			changed, err := json.Marshal(append([]json.RawMessage{}, e.Changed...))
			if err != nil {
				p.t.Fatal(err)
			}
			got := fmt.Sprintf(`%d %d %s %s {"notices":%s}`, e.Serial, e.Changes, e.By, e.Line, changed)
			want := fmt.Sprintf(`%d %d %s %s %s`, seen+1, entry.Changes, entry.By, entry.Line, p.tables.between(seen, seen+1))
			if got != want {
				p.t.Fatalf("an edit is told as\n%.2000s\nand not as\n%.2000s", got, want)
			}
			seen++
		}
		more = page.More
	}
	if seen != p.serial {
		p.t.Fatalf("%d edits are told, and %d were made", seen, p.serial)
	}
}

// TestPast edits through kills of the front and of the program, and makes snapshots: what each edit changed is told as
// the tables before and after it have it, and what was so at earlier serials, or changed between two, as it was
// answered then. That stays so once what is kept is gone, damaged or cut off, and of a folder that was repaired.
func TestPast(t *testing.T) {
	path := t.TempDir()
	words := []string{"--snapshot-every", "250", "--keep-daily", "3"}
	p := edited(t, path, number("FRONT_EDITS", 700), words...)
	p.learned()
	p.compare()
	p.asItWas(rand.New(rand.NewSource(5)), number("FRONT_PAST", 12))
	for how, change := range map[string]func(name string) error{
		"gone":    os.Remove,
		"damaged": func(name string) error { return flip(name, 2, 3) },
		"cut off": func(name string) error { return shorten(name, 2, 3) },
	} {
		p.stop()
		names, err := filepath.Glob(filepath.Join(path, folder.ChangesName+"*"))
		if err != nil || len(names) == 0 {
			t.Fatal(names, err)
		}
		if err := change(names[len(names)/2]); err != nil {
			t.Fatal(err)
		}
		p.front = begin(t, path, words...)
		p.learned()
		t.Log(how)
		p.compare()
	}
	p.stop()
	again := filepath.Join(t.TempDir(), "again")
	var said bytes.Buffer
	if status := repair([]string{"--journal", path, again}, &said, &said); status != 0 {
		t.Fatal(said.String())
	}
	p.front = begin(t, again, words...)
	p.learned()
	p.compare()
	p.asItWas(rand.New(rand.NewSource(6)), 3)
}

// flip changes a byte of a file, at a part of its length.
func flip(name string, part, of int) error {
	content, err := os.ReadFile(name)
	if err != nil {
		return err
	}
	content[len(content)*part/of] ^= 1
	return os.WriteFile(name, content, 0o600)
}

// shorten cuts a file off at a part of its length.
func shorten(name string, part, of int64) error {
	about, err := os.Stat(name)
	if err != nil {
		return err
	}
	return os.Truncate(name, about.Size()*part/of)
}

// asItWas asks so often what was so at an earlier serial, and what changed between two, and kills programs of earlier
// states in between.
func (p *past) asItWas(random *rand.Rand, times int) {
	p.t.Helper()
	for count := 0; count < times; count++ {
		serial := uint64(random.Intn(int(p.serial + 1)))
		if got := p.must(fmt.Sprintf("/table?at=%d", serial)); got != p.replies[serial] {
			p.t.Fatalf("the table of serial %d is\n%.1000s\nand not\n%.1000s", serial, got, p.replies[serial])
		}
		since := uint64(random.Intn(int(p.serial + 1)))
		if since > serial {
			since, serial = serial, since
		}
		want := asChanges(p.tables.between(since, serial), fmt.Sprint(serial))
		if got := p.must(fmt.Sprintf("/changes?since=%d&until=%d", since, serial)); got != want {
			p.t.Fatalf("changes between %d and %d are\n%.2000s\nand not\n%.2000s", since, serial, got, want)
		}
		if count%10 == 5 {
			p.killPast()
		}
	}
	// What the program has no more is told from the disk, in the same form.
	for since := uint64(0); since <= p.serial; since += 400 {
		want := asChanges(p.tables.between(since, p.serial), fmt.Sprint(p.serial))
		if got := p.must(fmt.Sprintf("/changes?since=%d", since)); got != want {
			p.t.Fatalf("changes since %d are\n%.2000s\nand not\n%.2000s", since, got, want)
		}
	}
}

// killPast ends the programs of earlier states.
func (f *front) killPast() {
	f.t.Helper()
	for _, l := range strings.Split(f.log(), "\n") {
		if found := processOf.FindStringSubmatch(l); found != nil && strings.Contains(l, "an earlier state stands") {
			id, _ := strconv.Atoi(found[1])
			_ = syscall.Kill(id, syscall.SIGKILL)
		}
	}
}
