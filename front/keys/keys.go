// Package keys remembers what bodies of edits that have a key were answered, so that one which comes again is
// answered as at first, and edits nothing twice.
package keys

import (
	"context"
	"crypto/sha256"
	"errors"
	"os"
	"sync"
	"time"
)

const (
	// Most is how many keys are remembered; of more the oldest are forgotten.
	Most = 100_000
	// Kept is how long a key is remembered.
	Kept = 24 * time.Hour
)

// ErrOther says that a key came with another body.
var ErrOther = errors.New("another body came with this key")

// Key is a client's key, and whose it is.
type Key [sha256.Size]byte

// Of is the key of a client, who may be nobody that is known.
func Of(client, key string) Key {
	whose := sha256.Sum256([]byte(client))
	return sha256.Sum256(append(whose[:], key...))
}

// body is a body that has a key, and the replies to its first lines.
type body struct {
	key     Key
	sum     [sha256.Size]byte
	began   time.Time // when the first reply was remembered, or it was found in a stream
	latest  time.Time // when the last one was
	replies []reply
	refused *Refused      // where it is to be made all together, and isn't
	bytes   int64         // of its records
	busy    chan struct{} // while somebody answers it; closed at the end
	// found says that a stream has a line of it, and sent how many times it may have one: then the key is this body's,
	// whoever has it.
	found bool
	sent  int
}

// reply is a reply that is remembered.
type reply struct {
	body   []byte
	serial uint64 // how many edits had been accepted
}

// Refused says which line of a body that is made all together was refused, and what it was answered.
type Refused struct {
	Number int // counted from 1
	Reply  []byte
	serial uint64
}

// isKept says whether something is remembered of a body.
func (b *body) isKept() bool { return len(b.replies) > 0 || b.refused != nil || b.found }

// Table is what is remembered. Who writes its file has `writing`; nobody waits for the disk who only looks.
type Table struct {
	folder  Folder
	writing sync.Mutex
	file    *os.File // nil before the first reply
	size    int64    // of what counts in it
	last    []Told   // what was appended last
	mutex   sync.Mutex
	known   map[Key]*body
	order   []*body // those of which something is remembered, the oldest first
	live    int64   // of the records that aren't forgotten
	broken  error   // why nothing can be remembered, if so
	most    int
	kept    time.Duration
}

// New is a table that remembers nothing yet, whose file is to stand in a folder.
func New(folder Folder) *Table {
	return &Table{folder: folder, known: map[Key]*body{}, most: Most, kept: Kept}
}

// Use is a body that one client has, until its end.
type Use struct {
	table *Table
	body  *body
}

// Begin waits until nobody else answers a body with this key, and has it. It is an error where that is another body.
func (t *Table) Begin(ctx context.Context, key Key, content []byte) (*Use, error) {
	sum := sha256.Sum256(content)
	for {
		use, busy, err := t.take(key, sum)
		if use != nil || err != nil {
			return use, err
		}
		select {
		case <-busy:
		case <-ctx.Done():
			return nil, ctx.Err()
		}
	}
}

// take has a body, or gives what is closed when another client's use of it ends.
func (t *Table) take(key Key, sum [sha256.Size]byte) (*Use, <-chan struct{}, error) {
	t.mutex.Lock()
	defer t.mutex.Unlock()
	t.forget(time.Now())
	b := t.known[key]
	if b == nil {
		b = &body{key: key, sum: sum}
		t.known[key] = b
	}
	if b.sum != sum {
		return nil, nil, ErrOther
	}
	if b.busy != nil {
		return nil, b.busy, nil
	}
	b.busy = make(chan struct{})
	return &Use{table: t, body: b}, nil, nil
}

// Replies are those to the first lines of the body, as many as were answered.
func (u *Use) Replies() [][]byte {
	u.table.mutex.Lock()
	defer u.table.mutex.Unlock()
	var all [][]byte
	for _, reply := range u.body.replies {
		all = append(all, reply.body)
	}
	return all
}

// Line is a line of the body, counted from 0.
func (u *Use) Line(number int) Line { return Line{key: u.body.key, sum: u.body.sum, number: number} }

// End lets others have the body.
func (u *Use) End() {
	u.table.mutex.Lock()
	defer u.table.mutex.Unlock()
	close(u.body.busy)
	u.body.busy = nil
	u.table.drop(u.body)
}

// forget forgets what is too old, and the oldest of too many, but nothing that somebody has. The servers of a stream
// know each line for as long by itself: none is forgotten here while a later one of its body isn't there.
func (t *Table) forget(now time.Time) {
	for len(t.order) > 0 {
		oldest := t.order[0]
		if oldest.busy != nil || len(t.order) <= t.most && now.Sub(oldest.latest) < t.kept {
			return
		}
		t.order = t.order[1:]
		t.live -= oldest.bytes
		delete(t.known, oldest.key)
	}
}

// keep has a body be one of which something is remembered.
func (t *Table) keep(b *body, at time.Time) {
	if b.latest = at; b.began.IsZero() {
		b.began = at
		t.order = append(t.order, b)
	}
}

// add remembers the next reply to a body.
func (t *Table) add(b *body, told reply, at time.Time, bytes int64) {
	t.keep(b, at)
	b.replies = append(b.replies, told)
	b.bytes += bytes
	t.live += bytes
}

// refuse remembers why a body isn't made all together.
func (t *Table) refuse(b *body, why *Refused, at time.Time, bytes int64) {
	t.keep(b, at)
	b.refused = why
	b.bytes += bytes
	t.live += bytes
}

// takeBack forgets what was remembered last of a body.
func (t *Table) takeBack(b *body, told Told) {
	if told.Part > 0 {
		b.refused = nil
	} else {
		b.replies = b.replies[:len(b.replies)-1]
	}
	b.bytes -= told.bytes
	t.live -= told.bytes
	t.drop(b)
}

// drop forgets a body of which nothing is remembered, but for who has it.
func (t *Table) drop(b *body) {
	if b.isKept() || b.sent > 0 {
		return
	}
	t.leave(b)
	if b.busy == nil && t.known[b.key] == b {
		delete(t.known, b.key)
	}
}

// leave takes a body out of the order.
func (t *Table) leave(b *body) {
	b.began = time.Time{}
	for i := len(t.order) - 1; i >= 0; i-- { // it came lately
		if t.order[i] == b {
			t.order = append(t.order[:i], t.order[i+1:]...)
			return
		}
	}
}
