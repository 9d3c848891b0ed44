package keeper

import (
	"context"
	"encoding/json"
	"errors"
	"fmt"
	"time"

	"review-front/folder"
	"review-front/line"
)

const (
	ahead       = 256 // how many lines are sent before their replies are read
	memoryTries = 40
	memoryPause = 100 * time.Millisecond
	shownBytes  = 200
)

// errMemory says that a line was answered 15, which is tried again.
var errMemory = errors.New("the program answers 15, it has no memory")

// mismatch is a replayed line that isn't answered as it was.
type mismatch struct {
	place fmt.Stringer
	line  []byte
	what  string
}

func (m *mismatch) Error() string {
	return fmt.Sprintf("%v: %s: %s", m.place, m.what, beginning(m.line))
}

// beginning is as much of a line as is told.
func beginning(l []byte) []byte {
	if len(l) <= shownBytes {
		return l
	}
	return append(append([]byte(nil), l[:shownBytes]...), "..."...)
}

func (m *mismatch) Unwrap() error { return errDamage }

// text is a place that is known by a few words.
type text string

func (t text) String() string { return string(t) }

// expected is a line that was sent and what has to come back.
type expected struct {
	line  []byte
	place fmt.Stringer
	check func(reply []byte) (string, bool)
}

// replay sends lines to a program that nobody else uses, and checks each reply.
type replay struct {
	program *watched
	careful bool // each reply is waited for, and 15 is tried again
	context context.Context
	sent    chan expected
	ended   chan error
	read    time.Time // when the snapshot had been read
}

// begin begins a replay. Its end has to be waited for by `end`.
func begin(ctx context.Context, w *watched, careful bool) *replay {
	r := &replay{program: w, careful: careful, context: ctx, sent: make(chan expected, ahead), ended: make(chan error, 1)}
	r.read = time.Now()
	if careful {
		r.ended <- nil
	} else {
		go r.receive()
	}
	return r
}

// receive checks replies until all lines have theirs. At the first fault the program is killed, so that sending ends.
func (r *replay) receive() {
	var first error
	for e := range r.sent {
		if first != nil {
			continue
		}
		reply, err := r.program.Receive()
		if err == nil {
			err = e.judge(reply)
		}
		if err != nil {
			first = err
			r.program.Kill()
		}
	}
	r.ended <- first
}

func (e expected) judge(reply []byte) error {
	what, ok := e.check(reply)
	if ok {
		return nil
	}
	if line.NoMemory(reply) {
		return fmt.Errorf("%v: %w", e.place, errMemory)
	}
	return &mismatch{place: e.place, line: e.line, what: what}
}

// send sends a line.
func (r *replay) send(e expected) error {
	if err := r.context.Err(); err != nil {
		return err
	}
	if r.careful {
		return r.exchange(e)
	}
	select {
	case r.sent <- e:
	default:
		if err := r.program.Flush(); err != nil {
			return err
		}
		r.sent <- e
	}
	return r.program.Send(e.line)
}

// exchange sends a line and waits for its reply; a line that is answered 15 is sent again after a while.
func (r *replay) exchange(e expected) error {
	for try := 0; ; try++ {
		reply, err := exchange(r.program, e.line)
		if err != nil {
			return err
		}
		err = e.judge(reply)
		if !errors.Is(err, errMemory) || try+1 == memoryTries {
			return err
		}
		select {
		case <-time.After(memoryPause):
		case <-r.context.Done():
			return r.context.Err()
		}
	}
}

// end waits for all replies. What went wrong first is told, and not what followed from it.
func (r *replay) end(sending error) error {
	flushed := r.program.Flush()
	close(r.sent)
	if err := <-r.ended; err != nil {
		return err
	}
	if sending != nil {
		return sending
	}
	return flushed
}

// exchange sends one line to a program of which no reply is due, and waits for its reply.
func exchange(w *watched, l []byte) ([]byte, error) {
	if err := w.Send(l); err != nil {
		return nil, err
	}
	if err := w.Flush(); err != nil {
		return nil, err
	}
	return w.Receive()
}

// snapshotLines sends the lines of a snapshot but those that are left out, and gives how many edits they are.
func (r *replay) snapshotLines(snapshot *folder.Snapshot, out func(line []byte) bool) (uint64, error) {
	edits := uint64(0)
	for i, l := range snapshot.Lines {
		if out != nil && out(l) {
			continue
		}
		place := text(fmt.Sprintf("line %d of the snapshot of serial %d", i+1, snapshot.Serial))
		check := isFormat
		if i > 0 {
			edits++
			check = isEdit(edits)
		}
		if i+1 == len(snapshot.Lines) {
			check = r.last(check)
		}
		if err := r.send(expected{line: l, place: place, check: check}); err != nil {
			return 0, err
		}
	}
	return edits, nil
}

// last notes when the last line of a snapshot has its reply.
func (r *replay) last(check func([]byte) (string, bool)) func([]byte) (string, bool) {
	return func(reply []byte) (string, bool) {
		r.read = time.Now()
		return check(reply)
	}
}

// isFormat says whether a line was answered by its version.
func isFormat(reply []byte) (string, bool) {
	var said struct{ Format *int }
	if json.Unmarshal(reply, &said) == nil && said.Format != nil {
		return "", true
	}
	return fmt.Sprintf("it is answered %s, and not by a version", reply), false
}

// isEdit says whether a line was accepted as an edit of that number.
func isEdit(serial uint64) func([]byte) (string, bool) {
	return func(reply []byte) (string, bool) {
		said, ok := line.ReadAccepted(reply)
		if ok && said.Serial == serial {
			return "", true
		}
		return fmt.Sprintf("it is answered %s, and was to be accepted as edit %d", reply, serial), false
	}
}

// isSame says whether a line was accepted with as many changes as at first.
func isSame(changes, serial uint64) func([]byte) (string, bool) {
	return func(reply []byte) (string, bool) {
		said, ok := line.ReadAccepted(reply)
		if ok && said.Serial == serial && said.Changes == changes {
			return "", true
		}
		return fmt.Sprintf("it is answered %s, and had %d changes at first", reply, changes), false
	}
}

func isMark(reply []byte) (string, bool) {
	if _, ok := line.ReadMark(reply); ok {
		return "", true
	}
	return fmt.Sprintf("it is answered %s, and not by a mark", reply), false
}
