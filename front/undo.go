package main

import (
	"errors"
	"fmt"
	"io"
	"strconv"

	"review-front/folder"
	back "review-front/undo"
)

// undo writes the line that takes an edit back, and says which later edits set the same.
func undo(words []string, to, faults io.Writer) int {
	journal, rest, status, ok := worded("undo", words, 1, faults, nil)
	if !ok {
		return status
	}
	serial, err := strconv.ParseUint(rest[0], 10, 64)
	if err != nil || serial == 0 {
		fmt.Fprintln(faults, "review-front undo: behind --journal FOLDER stands the serial of an edit")
		return 2
	}
	u := &undoing{serial: serial, past: back.Past{}, names: back.Names{}}
	if err := u.read(journal); err != nil {
		return failed("undo", faults, err)
	}
	for _, other := range u.later {
		fmt.Fprintf(faults, "review-front undo: serial %d set the same, and would be taken back too\n", other)
	}
	for _, dropped := range u.dropped {
		if dropped.Moves(u.names) {
			fmt.Fprintf(faults, "review-front undo: %s %q is added at the end of its list, and stood before others\n",
				dropped.List, dropped.Name)
		}
	}
	for i := len(u.lines) - 1; i >= 0; i-- {
		fmt.Fprintf(to, "%s\n", u.lines[i])
	}
	return 0
}

// undoing takes edits of one serial back. Several have one where they were made all together through a stream.
type undoing struct {
	serial  uint64
	past    back.Past
	names   back.Names
	sent    [][]byte       // the edits
	lines   [][]byte       // those that take them back
	dropped []back.Dropped // names that they dropped
	later   []uint64       // serials of edits behind them that set the same
}

// read reads the edits of a folder.
func (u *undoing) read(journal string) error {
	since, err := folder.Before(journal, u.serial, u.add)
	if err != nil {
		return err
	}
	err = folder.History(journal, since, func(e folder.Entry) error {
		switch {
		case e.Serial == u.serial:
			line, err := u.past.Back(e.Line)
			if err != nil {
				return err
			}
			u.lines, u.sent = append(u.lines, line), append(u.sent, append([]byte(nil), e.Line...))
		case e.Serial > u.serial && sameAs(e.Line, u.sent):
			u.later = append(u.later, e.Serial)
		}
		if e.Serial > u.serial {
			u.names.Add(e.Line)
			return nil
		}
		return u.add(e.Line)
	})
	if err == nil && u.lines == nil {
		err = errors.New("the journals have no edit of that serial")
	}
	return err
}

// add takes an edit that isn't later.
func (u *undoing) add(line []byte) error {
	if dropped, is := u.names.Add(line); is && len(u.sent) > 0 {
		u.dropped = append(u.dropped, dropped)
	}
	return u.past.Add(line)
}

// sameAs says whether a line sets the same as one of several.
func sameAs(line []byte, some [][]byte) bool {
	for _, one := range some {
		if back.Same(line, one) {
			return true
		}
	}
	return false
}
