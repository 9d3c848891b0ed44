package keeper

import (
	"bufio"
	"bytes"
	"context"
	"encoding/json"
	"errors"
	"fmt"
	"io"
	"os"
	"os/exec"
	"runtime"
	"strconv"
	"strings"
	"syscall"

	"review-front/folder"
)

// ErrModules says that nothing is compared, since the comparison has other modules.
var ErrModules = errors.New("what would change is told of two modules of attributes and two of policies")

// comparedBytes is about how much memory a comparison takes of a cell: it has both tables as they are told.
const comparedBytes = 6 << 10

// Room says that there isn't the memory that a comparison takes.
type Room struct{ Takes, Free uint64 }

func (r *Room) Error() string {
	return fmt.Sprintf("comparing two tables takes some %d MB of memory, and %d MB are free", r.Takes>>20, r.Free>>20)
}

// roomFor sees that there is the memory to compare so many cells, where it is known how much there is.
func roomFor(cells, free uint64) error {
	if takes := cells * comparedBytes; free > 0 && takes > free {
		return &Room{Takes: takes, Free: free}
	}
	return nil
}

// hasRoom sees that there is the memory to compare the table with another one, before that is begun.
func (k *Keeper) hasRoom(ctx context.Context) error {
	reply := k.Ask(ctx, []byte(`{"do":"state"}`))
	if reply.Err != nil {
		return reply.Err
	}
	var told struct{ State struct{ Cells uint64 } }
	if json.Unmarshal(reply.Body, &told) != nil {
		return nil // a program that doesn't tell it
	}
	return roomFor(told.State.Cells, freeMemory("/proc/meminfo"))
}

// freeMemory is how much memory the system could give, by such a file, or 0 where it doesn't say that.
func freeMemory(path string) uint64 {
	told, err := os.ReadFile(path)
	if err != nil {
		return 0
	}
	for _, l := range strings.Split(string(told), "\n") {
		if fields := strings.Fields(l); len(fields) > 1 && fields[0] == "MemAvailable:" {
			kilobytes, _ := strconv.ParseUint(fields[1], 10, 50)
			return kilobytes << 10
		}
	}
	return 0
}

// compareModules is how many modules of each sort the states have that are compared.
const compareModules = 2

// endedFirst is what the system is told of a process that it is to end first for want of memory.
const endedFirst = "1000"

// The statuses with which a comparison ends that found a difference, and one with a line that is refused.
const (
	statusDiffers = 1
	statusRefused = 2
)

// Compare tells what lines would change, as `review compare` does for the state of the last edit on disk, and the serial
// of that. The program that tells it stands beside the table's and is told nothing else.
func (k *Keeper) Compare(ctx context.Context, changes []byte) ([]byte, uint64, error) {
	if k.Command.AttributeModules != compareModules || k.Command.PolicyModules != compareModules {
		return nil, 0, ErrModules
	}
	if err := k.hasRoom(ctx); err != nil {
		return nil, 0, err
	}
	state, lines, err := os.Pipe()
	if err != nil {
		return nil, 0, fmt.Errorf("a pipe for a state: %w", err)
	}
	var told bytes.Buffer
	compared := k.comparing(ctx, state, changes, &told)
	runtime.LockOSThread()
	defer runtime.UnlockOSThread()
	err = compared.Start()
	state.Close()
	if err != nil {
		lines.Close()
		return nil, 0, fmt.Errorf("what would change: %w", err)
	}
	// It may take gigabytes: where the machine has no more, the system is to end it before any other. What it doesn't
	// take for that is compared all the same.
	_ = os.WriteFile(fmt.Sprintf("/proc/%d/oom_score_adj", compared.Process.Pid), []byte(endedFirst), 0)
	serial, err := k.writeState(lines)
	lines.Close()
	ended := compared.Wait()
	var status *exec.ExitError
	if errors.As(ended, &status) && told.Len() > 0 &&
		(status.ExitCode() == statusDiffers || status.ExitCode() == statusRefused) {
		ended = nil
	}
	if err == nil {
		err = ended
	}
	if err != nil {
		return nil, 0, fmt.Errorf("what would change: %w", err)
	}
	return told.Bytes(), serial, nil
}

// comparing is a program that compares a state with what changes make of it. It ends with the front, or rather with the
// thread that starts it.
func (k *Keeper) comparing(ctx context.Context, state *os.File, changes []byte, told io.Writer) *exec.Cmd {
	words := append([]string{"compare", "/dev/fd/3", "-"}, k.Command.Limits.Words()...)
	compared := exec.CommandContext(ctx, k.Command.Path, words...)
	compared.ExtraFiles = []*os.File{state}
	compared.Stdin, compared.Stdout, compared.Stderr = bytes.NewReader(changes), told, k.Command.Faults
	compared.SysProcAttr = &syscall.SysProcAttr{Setpgid: true, Pdeathsig: syscall.SIGKILL}
	return compared
}

// writeState writes the lines of the state of the last edit on disk, and gives its serial.
func (k *Keeper) writeState(to io.Writer) (uint64, error) {
	snapshot, _, err := k.Folder.Base(k.Folder.Last())
	if err != nil {
		return 0, err
	}
	out := bufio.NewWriterSize(to, 1<<16)
	write := func(l []byte) error {
		if _, err := out.Write(l); err != nil {
			return err
		}
		return out.WriteByte('\n')
	}
	for _, l := range snapshot.Lines {
		if err := write(l); err != nil {
			return 0, err
		}
	}
	serial := snapshot.Serial
	err = k.Folder.Each(snapshot.Serial, func(entry folder.Entry, _ folder.Place) error {
		serial = entry.Serial
		if entry.IsRecord() {
			return nil
		}
		return write(entry.Line)
	})
	if err == nil {
		err = out.Flush()
	}
	return serial, err
}
