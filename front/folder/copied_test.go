package folder

import (
	"bytes"
	"fmt"
	"math"
	"os"
	"os/exec"
	"path/filepath"
	"syscall"
	"testing"
)

// asCopier says what copy this test program is to make, to be killed.
const asCopier = "FOLDER_AS_COPIER"

// copies makes a copy as `repair` does, or as `restore` does that goes back to serial 7.
func copies(how, path string) error {
	until := Until{Serial: math.MaxUint64}
	if how == "restore" {
		until.Serial = 7
	}
	_, err := Copy(filepath.Join(path, "folder"), filepath.Join(path, "out"), until, how == "repair")
	return err
}

// TestCopiesKilled kills `repair` and `restore` at each of their system calls in turn: what is there stays, the copy is
// whole or isn't there, and another try makes it.
func TestCopiesKilled(t *testing.T) {
	if os.Getenv("FRONT_UNTRACED") != "" || exec.Command("strace", "-o", "/dev/null", "true").Run() != nil {
		t.Skip("strace can't look at processes")
	}
	all := files(t, chained(t))
	damaged := without(all, fmt.Sprintf("journal-%020d", 9), append([]byte(nil), all[fmt.Sprintf("journal-%020d", 9)]...))
	newest := damaged[fmt.Sprintf("journal-%020d", 9)]
	newest[len(newest)*2/3] ^= 1
	for how, content := range map[string]map[string][]byte{"repair": damaged, "restore": all} {
		killed := 0
		for at, more := 1, true; more; at += killStep() {
			var last uint64
			more, last = copierKilled(t, how, content, at)
			if want := map[string]uint64{"repair": 8, "restore": 7}[how]; last < want || last > 12 {
				t.Errorf("%s killed at call %d: the copy ends at serial %d", how, at, last)
			}
			if more {
				killed++
			}
		}
		if killed < 10 {
			t.Errorf("%s was killed %d times", how, killed)
		}
	}
}

// copierKilled makes a copy that is killed at a system call, and tries again where that left none. It says whether it was
// killed, and at which serial the copy ends.
func copierKilled(t *testing.T, how string, content map[string][]byte, at int) (bool, uint64) {
	t.Helper()
	path := t.TempDir()
	if err := os.Rename(laid(t, content), filepath.Join(path, "folder")); err != nil {
		t.Fatal(err)
	}
	copier := killedAt(at, asWriter+"="+path, asCopier+"="+how)
	err := copier.Run()
	for name, known := range files(t, filepath.Join(path, "folder")) {
		if !bytes.Equal(known, content[name]) {
			t.Fatalf("%s killed at call %d: %s was changed", how, at, name)
		}
	}
	if !exists(filepath.Join(path, "out")) {
		if err == nil {
			t.Fatalf("%s ends well and makes nothing", how)
		}
		if err := copies(how, path); err != nil {
			t.Fatalf("%s behind one that was killed at call %d: %v", how, at, err)
		}
	}
	torn, last, damage := begun(filepath.Join(path, "out"))
	if torn != nil || damage != nil {
		t.Errorf("%s killed at call %d: the copy has %v, %v", how, at, torn, damage)
	}
	if ended, ok := copier.ProcessState.Sys().(syscall.WaitStatus); err != nil && (!ok || !ended.Signaled()) {
		t.Fatalf("at call %d %s ends with %v", at, how, err)
	}
	return err != nil, last
}
