package program

import (
	"bytes"
	"os"
	"path/filepath"
	"strconv"
	"time"
)

// The places of some numbers in `stat` of a process, behind its name in brackets.
const (
	stateAt  = 0
	groupAt  = 2
	userAt   = 11
	systemAt = 12
)

// unit is the time in which Linux tells how long processors have worked.
const unit = 10 * time.Millisecond

// runs is the state of a thread that runs or waits for a processor.
const runs = "R"

// Work is what processors do for a program, and for what it started.
type Work struct {
	Took time.Duration // how long they have worked for it; while it grows the program moves
	Runs bool          // whether it runs, or waits for one
}

// Work looks at what processors do for the program.
func (p *Program) Work() Work {
	all, err := filepath.Glob("/proc/[0-9]*/stat")
	if err != nil {
		return Work{}
	}
	var work Work
	for _, name := range all {
		fields := stat(name)
		if len(fields) > systemAt && string(fields[groupAt]) == strconv.Itoa(p.ID()) {
			work.Took += time.Duration(whole(fields[userAt])+whole(fields[systemAt])) * unit
			work.Runs = work.Runs || anyRuns(filepath.Dir(name))
		}
	}
	return work
}

// stat is what `stat` of a process or a thread says behind its name, or nothing where that has ended.
func stat(name string) [][]byte {
	said, err := os.ReadFile(name)
	if err != nil {
		return nil
	}
	return bytes.Fields(said[bytes.LastIndexByte(said, ')')+1:])
}

// anyRuns says whether a thread of a process runs, or waits for a processor: its own state is that of its first one.
func anyRuns(process string) bool {
	threads, err := filepath.Glob(filepath.Join(process, "task", "[0-9]*", "stat"))
	if err != nil {
		return false
	}
	for _, name := range threads {
		if fields := stat(name); len(fields) > stateAt && string(fields[stateAt]) == runs {
			return true
		}
	}
	return false
}

func whole(digits []byte) uint64 {
	n, err := strconv.ParseUint(string(digits), 10, 64)
	if err != nil {
		return 0
	}
	return n
}
