package main

import (
	"context"
	"errors"
	"fmt"
	"os"
	"path/filepath"
	"strings"
	"testing"
	"time"

	"review-front/folder"
	"review-front/frame"
	"review-front/keeper"
	"review-front/limits"
	"review-front/measure"
	"review-front/program"
)

// opened brings a keeper to the state of a folder, in this process, and says how many edits it has.
func opened(t *testing.T, path, dump string) (uint64, error) {
	t.Helper()
	held, err := folder.Open(path)
	if err != nil {
		return 0, err
	}
	defer held.Close()
	k := keeper.New(keeper.Options{
		Command: program.Command{Path: theProgram(t), AttributeModules: 2, PolicyModules: 2, Limits: limits.Standard},
		Folder:  held, Meter: measure.New(), Queue: 16, Patience: time.Second, EndingTime: patient,
	})
	started, err := k.Start(context.Background())
	if err != nil {
		return 0, err
	}
	ctx, cancel := context.WithCancel(context.Background())
	ended := make(chan error, 1)
	go func() { ended <- started.Run(ctx) }()
	if reply := k.Ask(ctx, []byte(`{"do":"dump"}`)); dump != "" && string(reply.Body) != dump {
		t.Errorf("the dump is %s", reply.Body)
	}
	serial := k.Serial()
	cancel()
	if err := <-ended; err != nil {
		t.Error(err)
	}
	return serial, nil
}

// copied is a new folder with the files of another, of which one has other bytes.
func copied(t *testing.T, from, changed string, content []byte) string {
	t.Helper()
	to, err := os.MkdirTemp(t.TempDir(), "")
	if err != nil {
		t.Fatal(err)
	}
	files, err := os.ReadDir(from)
	if err != nil {
		t.Fatal(err)
	}
	for _, file := range files {
		bytes, err := os.ReadFile(filepath.Join(from, file.Name()))
		if err != nil {
			t.Fatal(err)
		}
		if file.Name() == changed {
			bytes = content
		}
		if err := os.WriteFile(filepath.Join(to, file.Name()), bytes, 0o600); err != nil {
			t.Fatal(err)
		}
	}
	return to
}

// journalled is a folder with some edits, the name of its last journal, and where its records begin.
func journalled(t *testing.T) (path, name string, content []byte, begins []int) {
	t.Helper()
	path = t.TempDir()
	f := begin(t, path)
	for _, l := range clinic(t)[:12] {
		f.accept(l) // one by one, so that each record but the last is known to be on disk
	}
	f.kill()
	files, err := filepath.Glob(filepath.Join(path, "journal-*"))
	if err != nil || len(files) != 1 {
		t.Fatalf("there are the journals %v: %v", files, err)
	}
	name = filepath.Base(files[0])
	if content, err = os.ReadFile(files[0]); err != nil {
		t.Fatal(err)
	}
	for at, l := range strings.SplitAfter(string(content), "\n") {
		if at == 0 {
			begins = append(begins, 0)
		}
		begins = append(begins, begins[at]+len(l))
	}
	return path, name, content, begins[:len(begins)-1]
}

// TestJournalCut cuts a journal at each byte of its last records: what was cut off is dropped, and the rest stands.
func TestJournalCut(t *testing.T) {
	path, name, content, begins := journalled(t)
	records := len(begins) - 1 // the last place is the end
	for at := begins[records-2]; at <= len(content); at++ {
		whole := uint64(0)
		for record := 1; record < records; record++ {
			if begins[record+1] <= at {
				whole++
			}
		}
		serial, err := opened(t, copied(t, path, name, content[:at]), "")
		if err != nil {
			t.Fatalf("cut at %d: %v", at, err)
		}
		if serial != whole {
			t.Fatalf("cut at %d: %d edits stand, and %d were whole", at, serial, whole)
		}
	}
}

// TestJournalFlipped changes each byte of the last records, in several ways: the start ends with file and place, and
// nothing is dropped; but of the very last one no other record says that it was on disk, so that it is dropped.
func TestJournalFlipped(t *testing.T) {
	path, name, content, begins := journalled(t)
	records := len(begins) - 1
	for at := begins[records-2]; at < len(content); at++ {
		for _, flip := range []byte{1, 0x20, 0x80, content[at]} {
			changed := append([]byte(nil), content...)
			changed[at] ^= flip
			to := copied(t, path, name, changed)
			serial, err := opened(t, to, "")
			if at >= begins[records-1] {
				if err != nil || serial != uint64(records-2) {
					t.Fatalf("byte %d flipped by %x: serial %d, %v", at, flip, serial, err)
				}
				continue
			}
			var damage *frame.Damage
			if !errors.As(err, &damage) || filepath.Base(damage.File) != name {
				t.Fatalf("byte %d flipped by %x: %v", at, flip, err)
			}
			if left, err := os.ReadFile(filepath.Join(to, name)); err != nil || string(left) != string(changed) {
				t.Fatalf("byte %d flipped: the journal was changed", at)
			}
		}
	}
}

// TestJournalHead cuts a journal within its head, which no crash does: it has its name once it is on disk.
func TestJournalHead(t *testing.T) {
	path, name, content, begins := journalled(t)
	for at := 0; at < begins[1]; at += 37 {
		var damage *frame.Damage
		if _, err := opened(t, copied(t, path, name, content[:at]), ""); !errors.As(err, &damage) {
			t.Fatalf("cut at %d: %v", at, err)
		}
	}
	if serial, err := opened(t, copied(t, path, name, content[:begins[1]]), ""); err != nil || serial != 0 {
		t.Fatalf("cut behind the head: %d edits, %v", serial, err)
	}
}

// TestOldDamaged changes an old journal, which no start reads: the front ends by itself with file and place.
func TestOldDamaged(t *testing.T) {
	path := t.TempDir()
	f := begin(t, path)
	f.accept(clinic(t)[:12]...)
	if status := f.stop(); status != 0 {
		t.Fatalf("the front ends with %d", status)
	}
	name := filepath.Join(path, fmt.Sprintf("journal-%020d", 1))
	content, err := os.ReadFile(name)
	if err != nil {
		t.Fatal(err)
	}
	content[len(content)/2] ^= 1
	if err := os.WriteFile(name, content, 0o600); err != nil {
		t.Fatal(err)
	}
	f = launch(t, path)
	if status := f.status(); status != 1 || !strings.Contains(f.log(), name+" is damaged at byte ") {
		t.Errorf("the front ends with %d:\n%s", status, f.log())
	}
}

// TestZeros puts zeros behind the last record, as a file system may after a crash.
func TestZeros(t *testing.T) {
	path, name, content, begins := journalled(t)
	serial, err := opened(t, copied(t, path, name, append(append([]byte(nil), content...), make([]byte, 4096)...)), "")
	if err != nil || serial != uint64(len(begins)-2) {
		t.Fatalf("%d edits, %v", serial, err)
	}
}

// TestMiddle changes a record before others, takes one away, and takes away a whole journal: the start ends with a
// place.
func TestMiddle(t *testing.T) {
	path, name, content, begins := journalled(t)
	cut := func(from, to int) []byte {
		return append(append([]byte(nil), content[:from]...), content[to:]...)
	}
	for what, changed := range map[string][]byte{
		"a byte of the third record": append(append([]byte(nil), content[:begins[3]+40]...), cut(0, begins[3]+41)...),
		"the third record":           cut(begins[3], begins[4]),
		"the middle of the third":    cut(begins[3]+5, begins[3]+9),
		"two records exchanged": append(append(append(append([]byte(nil), content[:begins[3]]...), content[begins[4]:begins[5]]...),
			content[begins[3]:begins[4]]...), content[begins[5]:]...),
	} {
		_, err := opened(t, copied(t, path, name, changed), "")
		var damage *frame.Damage
		if !errors.As(err, &damage) {
			t.Errorf("%s: %v", what, err)
		}
	}
}

// TestSnapshotDamaged changes bytes of a snapshot: the start ends with file and place.
func TestSnapshotDamaged(t *testing.T) {
	path := t.TempDir()
	f := begin(t, path)
	f.accept(clinic(t)[:12]...)
	if status := f.stop(); status != 0 {
		t.Fatalf("the front ends with %d", status)
	}
	files, err := filepath.Glob(filepath.Join(path, "snapshot-*"))
	if err != nil || len(files) != 1 {
		t.Fatalf("there are the snapshots %v: %v", files, err)
	}
	content, err := os.ReadFile(files[0])
	if err != nil {
		t.Fatal(err)
	}
	for at := 0; at < len(content); at += 37 {
		changed := append([]byte(nil), content...)
		changed[at] ^= 4
		for _, other := range [][]byte{changed, content[:at]} {
			_, err := opened(t, copied(t, path, filepath.Base(files[0]), other), "")
			var damage *frame.Damage
			if !errors.As(err, &damage) {
				t.Fatalf("byte %d: %v", at, err)
			}
		}
	}
}

// TestReplayDiffers gives a record another number of changes, with right checksums and a chain that is made anew: the
// start ends with its place, by the front too.
func TestReplayDiffers(t *testing.T) {
	path, name, content, begins := journalled(t)
	to := copied(t, path, name, content)
	forged := readForged(t, to)
	forged.anew = true // else the chain tells it before
	one := &forged.records[forged.at(9)]
	one.rest = strings.Replace(one.rest, `"serial":9,"changes":`, `"serial":9,"changes":7`, 1)
	forged.write()
	f := launch(t, to)
	if status := f.status(); status != 1 {
		t.Fatalf("the front ends with %d", status)
	}
	place := fmt.Sprintf("%s, byte %d", name, begins[9])
	if !strings.Contains(f.log(), place) {
		t.Errorf("the front doesn't tell %s:\n%s", place, f.log())
	}
}
