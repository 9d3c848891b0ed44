package main

import (
	"bytes"
	"fmt"
	"os"
	"path/filepath"
	"strconv"
	"time"
)

// tick is the unit in which Linux tells the processor time of a process.
const tick = 10 * time.Millisecond

// worked is the processor time that a front has taken, and that of the program which it started.
func (s *started) worked() (front, program time.Duration, err error) {
	all, err := filepath.Glob("/proc/[0-9]*/stat")
	if err != nil {
		return 0, 0, err
	}
	for _, name := range all {
		stat, err := os.ReadFile(name)
		if err != nil {
			continue // it has ended meanwhile
		}
		// Behind the name in brackets: the state, the parent's number, and from the twelfth on the two times.
		fields := bytes.Fields(stat[bytes.LastIndexByte(stat, ')')+1:])
		if len(fields) < 13 {
			return 0, 0, fmt.Errorf("%s isn't as it should be", name)
		}
		taken := times(fields[11]) + times(fields[12])
		if own := strconv.Itoa(s.process.Process.Pid); filepath.Base(filepath.Dir(name)) == own {
			front += taken
		} else if string(fields[1]) == own {
			program += taken
		}
	}
	return front, program, nil
}

func times(ticks []byte) time.Duration {
	count, err := strconv.Atoi(string(ticks))
	if err != nil {
		return 0
	}
	return time.Duration(count) * tick
}
