package keeper

import (
	"bytes"
	"context"
	"crypto/rand"
	"encoding/hex"
	"errors"
	"fmt"
	"time"

	"review-front/replicated"
)

const (
	// appendTime is how long it is tried to append an edit.
	appendTime = 15 * time.Second
	// contendedTime is how long a crossing counts: while other fronts append, too, they have their turns.
	contendedTime = time.Second
	// mostFlying is how many edits are on their way to the stream at most.
	mostFlying = 64
)

// The states of the answer to a client's edit in a stream.
const (
	unanswered int32 = iota
	answered         // it has its reply
	left             // its client was told that it may be applied
)

// submit appends an edit in its turn. It waits until that stands among the lines for the program, so that what its
// client sends behind it comes behind it there, too.
func (l *streamed) submit(ctx context.Context, call *Call) (<-chan Reply, error) {
	k := l.keeper
	id, err := idOf(call)
	if err != nil {
		return nil, err
	}
	began := time.Now()
	call.reply, call.fed = make(chan Reply, 1), make(chan struct{})
	all := call.all() // once it is appended these are the reader's
	if answer(all, k.remembered(all)) {
		return call.reply, nil
	}
	err = l.append(ctx, id, call)
	if err != nil && call.differs != nil {
		l.keeper.spare.differs(call.differs) // it may have what isn't made
	}
	if _, told := err.(*Tried); told {
		call.reply <- Reply{Err: err}
		return call.reply, nil
	}
	if err != nil {
		l.unsent(call)
	}
	if answer(all, l.repeats(ctx, all, err)) {
		return call.reply, nil
	}
	if err != nil {
		return nil, err
	}
	timer := time.NewTimer(l.left(began))
	defer timer.Stop()
	select {
	case <-call.fed:
	case <-ctx.Done():
	case <-timer.C:
		call.leaveAppended()
	}
	return call.reply, nil
}

// left is how long the client of an edit that is appended, or may be, waits until it is read, where it began so long
// ago.
func (l *streamed) left(began time.Time) time.Duration {
	left := appendTime + l.keeper.TryTime - time.Since(began)
	if left > l.keeper.Patience {
		return l.keeper.Patience
	}
	return left
}

// linesOf is what is appended of an edit, or of several that are made all together.
func linesOf(call *Call) []byte {
	var lines [][]byte
	for _, one := range call.all() {
		lines = append(lines, one.Line)
	}
	return bytes.Join(lines, newline)
}

// newID is an id that no other edit has.
func newID() (string, error) {
	var word [16]byte
	if _, err := rand.Read(word[:]); err != nil {
		return "", fmt.Errorf("an id for an edit: %w", err)
	}
	return hex.EncodeToString(word[:]), nil
}

// append finds the end of the stream and appends an edit of a client there, whether he still waits or not. Without an
// error it is in the stream, or may be.
func (l *streamed) append(ctx context.Context, id string, call *Call) error {
	if l.keeper.Folder.Broken() != nil || l.keeper.Keys.Broken() != nil {
		return ErrJournal
	}
	limit, cancel := context.WithTimeout(context.Background(), appendTime+l.keeper.TryTime)
	defer cancel()
	edit := replicated.Edit{ID: id, By: call.By, Line: linesOf(call), Whole: call.group != nil, Key: call.keyed()}
	for expected := false; ; {
		behind, err := l.reserve(limit, call)
		if err != nil && (!expected || l.forget(id)) {
			return after(ctx, err)
		}
		if err != nil {
			return nil
		}
		if !expected {
			l.expect(id, call)
			expected = true
		}
		known := l.seen()
		sequence, err := l.stream.Append(limit, behind, edit, l.keeper.edits.give)
		l.landed(behind, sequence, err)
		var moved *replicated.Moved
		switch {
		case err == nil && l.passed(id, sequence):
			return &appendedBefore{sequence}
		case err == nil:
			return nil
		case errors.Is(err, replicated.ErrUnsure):
			l.doubt(call, behind+1)
			return nil
		case !errors.As(err, &moved) || moved.Last < known:
			if !l.forget(id) {
				return nil
			}
			return l.unappended(err)
		}
	}
}

// seen is the sequence of the last edit that was read: whoever leads the stream then has it, unless it lost edits.
func (l *streamed) seen() uint64 {
	l.mutex.Lock()
	defer l.mutex.Unlock()
	return l.taken
}

// unappended is what a client is told whose edit isn't appended. The log has one in a second.
func (l *streamed) unappended(why error) error {
	l.mutex.Lock()
	now := time.Now()
	isTold := now.Sub(l.told) < tellPause
	if !isTold {
		l.told = now
	}
	l.mutex.Unlock()
	if !isTold {
		l.keeper.Log.Error("an edit can't be appended", "error", why)
	}
	var moved *replicated.Moved
	switch {
	case errors.As(why, &moved):
		return ErrLacks
	case !l.stream.State().Led:
		return ErrUnled
	}
	return ErrStream
}

// reserve waits for an edit's turn, and gives the sequence behind which it is to stand. Who has it gives the turn
// back once the edit is sent: the next one is sent for the place behind it.
func (l *streamed) reserve(ctx context.Context, call *Call) (uint64, error) {
	k := l.keeper
	waiting, cancel := k.waiting(ctx)
	defer cancel()
	if err := l.turn(waiting, call); err != nil {
		return 0, err
	}
	for {
		landed := l.landings.next()
		behind, ok, err := l.free(waiting, call)
		if ok {
			return behind, nil
		}
		if err == nil {
			select {
			case <-landed:
				continue
			case <-waiting.Done():
				err = ErrBusy
			}
		}
		k.edits.give()
		return 0, err
	}
}

// free is the place of the next edit, if another one may be on its way. Where one was crossed by another front's,
// those behind it are waited for first.
func (l *streamed) free(ctx context.Context, call *Call) (behind uint64, ok bool, err error) {
	if call.Known != nil {
		if behind, err = l.behind(ctx, *call.Known); err != nil {
			return 0, false, err
		}
		l.mutex.Lock()
		defer l.mutex.Unlock()
		if err := l.owns(call); err != nil {
			return 0, false, err
		}
		l.flying++
		return behind, true, nil
	}
	l.mutex.Lock()
	defer l.mutex.Unlock()
	now := time.Now()
	if l.flying >= mostFlying || l.flying > 0 && l.closed || l.flying == 0 && now.Before(l.resumes) {
		return 0, false, nil
	}
	if call.Remember != nil && l.taken < l.foreign {
		return 0, false, nil
	}
	if err := l.owns(call); err != nil {
		return 0, false, err
	}
	if l.flying == 0 {
		l.began, l.closed, l.failed = now, false, false
	}
	if l.flying == 0 || l.tail < l.last.Load() {
		l.tail = l.last.Load()
	}
	behind = l.tail
	l.tail++
	l.flying++
	return behind, true, nil
}

// landed says what became of an edit that was sent. Where other fronts append, too, those that are on their way are
// waited for before more are sent, and once all of them have their places others have as long.
func (l *streamed) landed(behind, sequence uint64, err error) {
	var moved *replicated.Moved
	if errors.As(err, &moved) {
		sequence = moved.Last
	}
	l.sees(sequence)
	l.mutex.Lock()
	defer l.mutex.Unlock()
	if (err != nil || sequence != behind+1) && sequence > l.foreign {
		l.foreign = sequence
	}
	l.flying--
	now := time.Now()
	if err != nil {
		l.crossed, l.failed = now, true
	}
	contended := now.Sub(l.crossed) < contendedTime
	l.closed = l.closed || err != nil || contended
	if l.flying == 0 && contended && !l.failed {
		l.resumes = now.Add(now.Sub(l.began))
		time.AfterFunc(now.Sub(l.began), l.landings.moved)
	}
	l.landings.moved()
}

// behind is the sequence behind which an edit is to stand that is to be the one behind a serial.
func (l *streamed) behind(ctx context.Context, known uint64) (uint64, error) {
	k := l.keeper
	if err := k.Reach(ctx, l.last.Load()); err != nil {
		return 0, err
	}
	// In this order: what is accepted between the two has another serial, or else stands behind that sequence.
	applied := l.applied.Load()
	if err := k.otherwise(known); err != nil {
		return 0, err
	}
	return applied, nil
}

// sees says that there is an edit at a sequence.
func (l *streamed) sees(sequence uint64) {
	for {
		last := l.last.Load()
		if sequence <= last || l.last.CompareAndSwap(last, sequence) {
			return
		}
	}
}

// expect says that the stream may bring an edit of a client, and forget that it won't. This is false where the stream
// brought it already: one that came with a key another front may have appended, too.
func (l *streamed) expect(id string, call *Call) {
	l.mutex.Lock()
	defer l.mutex.Unlock()
	l.due[id] = call
}

func (l *streamed) forget(id string) bool {
	l.mutex.Lock()
	defer l.mutex.Unlock()
	_, due := l.due[id]
	delete(l.due, id)
	return due
}

// passed says whether an edit stands at a sequence which was read before it was expected. It is forgotten then.
func (l *streamed) passed(id string, sequence uint64) bool {
	l.mutex.Lock()
	defer l.mutex.Unlock()
	_, due := l.due[id]
	if !due || sequence > l.taken {
		return false
	}
	delete(l.due, id)
	return true
}

// doubt says that an edit may stand at a sequence, and else nowhere.
func (l *streamed) doubt(call *Call, sequence uint64) {
	l.mutex.Lock()
	defer l.mutex.Unlock()
	call.doubted = sequence
	l.settleDoubts(l.taken)
}

// settleDoubts tells of edits that might have stood up to a sequence that they don't. It is for who has the mutex.
func (l *streamed) settleDoubts(sequence uint64) {
	for id, call := range l.due {
		if call.doubted != 0 && call.doubted <= sequence {
			delete(l.due, id)
			l.unsent(call)
			l.wasTried(call, Reply{Err: ErrStream})
			call.finish(Reply{Err: ErrStream})
		}
	}
}

// leaveAppended tells a client that his edit may be applied. He waits no more.
func (c *Call) leaveAppended() {
	if c.answer.CompareAndSwap(unanswered, left) {
		c.reply <- Reply{Err: ErrAppended}
	}
}

// isAnswered says that a reply comes, or is false where nobody waits for it any more.
func (c *Call) isAnswered() bool {
	return c.answer.CompareAndSwap(unanswered, answered) || c.answer.Load() == answered
}

// leaveAll tells all clients whose edits the stream has brought that these may be applied: there is no program that
// could say more soon.
func (l *streamed) leaveAll() {
	if l == nil {
		return
	}
	l.mutex.Lock()
	defer l.mutex.Unlock()
	for call := range l.brought {
		call.leaveAppended()
	}
}

// finished says that an edit has its reply.
func (l *streamed) finished(call *Call, reply Reply) {
	l.wasTried(call, reply)
	l.mutex.Lock()
	defer l.mutex.Unlock()
	delete(l.brought, call)
}
