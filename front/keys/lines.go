package keys

import (
	"crypto/sha256"
	"encoding/binary"
	"encoding/hex"
	"strconv"
	"strings"
	"time"
)

// Line is a line of a body with a key. Fronts of one stream tell each other by it which edit is which.
type Line struct {
	key    Key
	sum    [sha256.Size]byte
	number int // counted from 0
}

// Next is the line that stands so many lines behind one.
func (l Line) Next(count int) Line {
	l.number += count
	return l
}

// Word is a word for a line, the same wherever that is asked and for no other line.
func (l Line) Word() string {
	all := append(append([]byte(nil), l.key[:]...), l.sum[:]...)
	sum := sha256.Sum256(binary.BigEndian.AppendUint64(all, uint64(l.number)))
	return hex.EncodeToString(sum[:])
}

// String writes a line, as Parse reads it.
func (l Line) String() string {
	return hex.EncodeToString(l.key[:]) + " " + hex.EncodeToString(l.sum[:]) + " " + strconv.Itoa(l.number)
}

// Parse reads what String wrote, and is false for everything else.
func Parse(written string) (l Line, ok bool) {
	words := strings.Split(written, " ")
	if len(words) != 3 || !unhex(l.key[:], words[0]) || !unhex(l.sum[:], words[1]) {
		return l, false
	}
	number, err := strconv.ParseUint(words[2], 10, 16)
	l.number = int(number)
	return l, err == nil && l.String() == written
}

// Find says that a stream has a line of a body since some time, whoever sent it. Its key is that body's: another one
// that somebody has with it, and of which the stream has nothing, came too late.
func (t *Table) Find(l Line, since time.Time) {
	t.mutex.Lock()
	defer t.mutex.Unlock()
	if time.Since(since) >= t.kept {
		return
	}
	b := t.known[l.key]
	if b == nil || b.sum != l.sum && !b.isKept() {
		b = &body{key: l.key, sum: l.sum}
		t.known[l.key] = b
	}
	if b.sum == l.sum {
		t.keep(b, since)
		b.found = true
	}
}

// Send says that a line of a body is sent to a stream now, which may have it then. It is an error where another body
// has its key.
func (t *Table) Send(l Line) error {
	t.mutex.Lock()
	defer t.mutex.Unlock()
	b := t.of(l)
	if b == nil {
		return ErrOther
	}
	t.keep(b, time.Now())
	b.sent++
	return nil
}

// Unsent says that the stream hasn't a line that was sent.
func (t *Table) Unsent(l Line) {
	t.mutex.Lock()
	defer t.mutex.Unlock()
	if b := t.of(l); b != nil {
		b.sent--
		t.drop(b)
	}
}

// Owns is an error where another body has the key of a line.
func (t *Table) Owns(l Line) error {
	t.mutex.Lock()
	defer t.mutex.Unlock()
	if t.of(l) == nil {
		return ErrOther
	}
	return nil
}

// Reply is what is remembered of the answer to a line: its reply, or why its body isn't made all together.
func (t *Table) Reply(l Line) ([]byte, *Refused) {
	t.mutex.Lock()
	defer t.mutex.Unlock()
	b := t.of(l)
	switch {
	case b == nil:
		return nil, nil
	case l.number < len(b.replies):
		return b.replies[l.number].body, nil
	}
	return nil, b.refused
}

// of is the body of a line, if its key is that body's.
func (t *Table) of(l Line) *body {
	if b := t.known[l.key]; b != nil && b.sum == l.sum {
		return b
	}
	return nil
}
