package main

import (
	"fmt"
	"strings"
	"syscall"
	"testing"
	"unsafe"

	"review-front/folder"
)

// limitFiles bounds how long files of a process may become.
func limitFiles(t *testing.T, process int, most uint64) {
	t.Helper()
	limit := syscall.Rlimit{Cur: most, Max: 1 << 40}
	_, _, errno := syscall.RawSyscall6(syscall.SYS_PRLIMIT64, uintptr(process), syscall.RLIMIT_FSIZE, uintptr(unsafe.Pointer(&limit)), 0, 0, 0)
	if errno != 0 {
		t.Fatal(errno)
	}
}

// fill is a front whose disk is full from time to time, and what it acknowledged.
type fill struct {
	*front
	known map[uint64]string
}

// edit edits, and says whether that was accepted.
func (d *fill) edit(number int) bool {
	d.t.Helper()
	l := fmt.Sprintf(`{"do":"attr.set","category":"Resource","entity":"rota","attribute":"note","type":"integer","values":[%d]}`, number)
	reply := d.lines(l)[0]
	serial, ok := accepted(reply)
	if ok {
		d.known[serial] = l
	} else if !strings.Contains(reply, `"status":503`) {
		d.t.Fatalf("an edit is answered %s", reply)
	}
	return ok
}

// round fills the disk, sees that questions are answered, and makes room again.
func (d *fill) round(t *testing.T, round int) {
	t.Helper()
	if !d.edit(round * 1000) {
		t.Fatal("there is room, and an edit is refused")
	}
	limitFiles(t, d.process.Process.Pid, uint64(28_000+round*1_000))
	refused := 0
	for number := 1; refused < 5; number++ {
		if number > 1000 {
			t.Fatal("the disk isn't full")
		}
		if !d.edit(round*1000 + number) {
			refused++
		}
		d.must("/counts")
	}
	w := newTwin(t)
	w.follow(d.folder, map[uint64]folder.Entry{})
	w.same(d.front)
	limitFiles(t, d.process.Process.Pid, 1<<40)
	eventually(t, "an edit is accepted", func() bool { return d.edit(round*1000 + 999) })
}

// TestFullDisk lets the journal come to a limit of its file, as a full disk: the edit that can't be kept gets 503 and
// isn't there afterwards, questions are answered, and when there is room again edits are.
func TestFullDisk(t *testing.T) {
	path := t.TempDir()
	d := &fill{front: begin(t, path), known: map[uint64]string{}}
	d.accept(clinic(t)...)
	for round := 0; round < 3; round++ {
		d.round(t, round)
	}
	if got := d.metric("review_front_journal_failures_total"); got < 3 {
		t.Errorf("%v failures are counted", got)
	}
	d.kill()
	f := begin(t, path)
	journal := map[uint64]folder.Entry{}
	w := newTwin(t)
	w.follow(path, journal)
	w.same(f)
	for serial, l := range d.known {
		if string(journal[serial].Line) != l {
			t.Errorf("edit %d was acknowledged as %s", serial, l)
		}
	}
}

// TestFullAtStart starts where no journal can be written: questions are answered, and edits get 503.
func TestFullAtStart(t *testing.T) {
	path := t.TempDir()
	f := begin(t, path)
	f.accept(clinic(t)...)
	table := f.must("/table")
	f.kill()
	f = launchBy(t, "ulimit -f 0", path)
	f.await()
	if f.must("/table") != table {
		t.Error("the table is another one")
	}
	if reply := f.lines(`{"do":"person.add","name":"extra"}`)[0]; !strings.Contains(reply, `"status":503`) {
		t.Errorf("an edit is answered %s", reply)
	}
}
