package folder

import (
	"fmt"
	"math"
	"os"
	"os/exec"
	"path/filepath"
	"runtime"
	"strings"
	"syscall"
	"testing"
	"time"
)

// asWriter names the folder in which this test program is to write, to be killed.
const asWriter = "FOLDER_AS_WRITER"

// What writes is looked at on one thread.
func init() { runtime.LockOSThread() }

func TestMain(m *testing.M) {
	if path := os.Getenv(asWriter); path != "" {
		write := writes
		if how := os.Getenv(asCopier); how != "" {
			write = func(path string) error { return copies(how, path) }
		}
		if err := write(path); err != nil {
			fmt.Fprintln(os.Stderr, err)
			os.Exit(1)
		}
		os.Exit(0)
	}
	os.Exit(m.Run())
}

// writes opens a folder, writes edits, a snapshot, a new journal, takes old ones away, and makes a copy. It tells the
// serial of each edit that is kept.
func writes(path string) error {
	f, err := Open(filepath.Join(path, "folder"))
	if err != nil {
		return err
	}
	defer f.Close()
	if _, err := f.Recover(0); err != nil {
		return err
	}
	if err := f.Begin(Head{}); err != nil {
		return err
	}
	for round := 0; round < 3; round++ {
		for i := 0; i < 2; i++ {
			serial := f.Last() + 1
			if err := f.Append([]Entry{{Serial: serial, Line: []byte("{}")}, {Serial: serial + 1, Line: []byte("{}")}}); err != nil {
				return err
			}
			fmt.Println(serial + 1)
		}
		if err := f.Keep(&Snapshot{Serial: f.Last(), Lines: [][]byte{[]byte("a")}}); err != nil {
			return err
		}
		if err := f.Rotate(); err != nil {
			return err
		}
		if err := f.Trim(f.Last(), time.Now().Add(time.Hour)); err != nil {
			return err
		}
	}
	_, err = Copy(filepath.Join(path, "folder"), filepath.Join(path, "copy"), Until{Serial: math.MaxUint64}, false)
	return err
}

// killStep is at how many system calls one is killed, or at each.
func killStep() int {
	if os.Getenv("FRONT_SESSIONS") == "1" {
		return 1
	}
	return 3
}

// killedAt is this test program as one that writes, to be killed at one of its system calls.
func killedAt(at int, as ...string) *exec.Cmd {
	calls := "openat,write,pwrite64,fsync,renameat,unlinkat,ftruncate,mkdirat"
	writer := exec.Command("strace", "-o", "/dev/null", "-e", "trace="+calls,
		"-e", fmt.Sprintf("inject=%s:signal=KILL:when=%d", calls, at), os.Args[0])
	writer.Env = append(os.Environ(), as...)
	return writer
}

// TestKilled kills what writes at each of its system calls in turn: the next start finds nothing damaged, and has each
// edit that was told to be kept; a copy is whole, or isn't there.
func TestKilled(t *testing.T) {
	if os.Getenv("FRONT_UNTRACED") != "" || exec.Command("strace", "-o", "/dev/null", "true").Run() != nil {
		t.Skip("strace can't look at processes")
	}
	killed := 0
	for at := 1; ; at += killStep() {
		path := t.TempDir()
		writer := killedAt(at, asWriter+"="+path)
		said, err := writer.Output()
		kept := uint64(0)
		for _, l := range strings.Fields(string(said)) {
			_, _ = fmt.Sscan(l, &kept)
		}
		if torn, last, damage := begun(filepath.Join(path, "folder")); damage != nil || last < kept {
			t.Errorf("killed at call %d: serial %d of %d stands, %v is dropped: %v", at, last, kept, torn, damage)
		}
		if out := filepath.Join(path, "copy"); exists(out) {
			if torn, last, damage := begun(out); damage != nil || torn != nil || last != 12 {
				t.Errorf("killed at call %d: the copy has serial %d, %v, %v", at, last, torn, damage)
			}
		}
		if err == nil {
			break
		}
		if ended, ok := writer.ProcessState.Sys().(syscall.WaitStatus); !ok || !ended.Signaled() {
			t.Fatalf("at call %d what writes ends with %v", at, err)
		}
		killed++
	}
	if killed < 20 {
		t.Errorf("it was killed %d times", killed)
	}
}

func exists(path string) bool {
	_, err := os.Stat(path)
	return err == nil
}
