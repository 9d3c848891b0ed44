package keeper

import (
	"context"
	"errors"
	"fmt"
	"time"

	"review-front/line"
)

// whole makes edits all together, as one message of the stream, or none of them. `known`, if there is one, is how many
// edits there are to be before them.
func (l *streamed) whole(ctx context.Context, calls []*Call, known *uint64) ([]Reply, error) {
	first := grouped(calls)
	first.Known = known
	if _, err := l.submit(ctx, first); err != nil {
		return nil, err
	}
	return repliesTo(ctx, calls)
}

// settleWhole tries edits that the stream brought and that are made all together on a program beside the table's: where
// one isn't accepted none is made, as at all other fronts. It is tried again while there is no such program; what ends
// several is left to the table's.
func (l *streamed) settleWhole(ctx context.Context, first *Call) error {
	k := l.keeper
	if err := l.reaches(ctx, first.sequence-1); err != nil {
		return err
	}
	for ends, pause := 0, firstPause; ends < mostEnds; pause = longer(pause) {
		refused, err := l.tryWhole(ctx, first)
		if err == nil && refused != nil {
			first.refuse(refused)
		}
		if err == nil || ctx.Err() != nil {
			return ctx.Err()
		}
		var tried *Tried
		if errors.As(err, &tried) {
			ends++
		}
		l.leaveAll()
		k.Log.Error("edits that are made all together can't be tried yet", "sequence", first.sequence, "error", err, "after", pause)
		select {
		case <-time.After(pause):
		case <-ctx.Done():
		}
	}
	return nil
}

// reaches waits until all edits up to a sequence are applied.
func (l *streamed) reaches(ctx context.Context, sequence uint64) error {
	for {
		grown := l.keeper.reached.next()
		if l.applied.Load() >= sequence {
			return nil
		}
		select {
		case <-grown:
		case <-ctx.Done():
			return ctx.Err()
		}
	}
}

// tryWhole tells a program that has the state before them all edits, and says which isn't accepted.
func (l *streamed) tryWhole(ctx context.Context, first *Call) (*Part, error) {
	r, err := l.tried(ctx)
	if err != nil {
		return nil, fmt.Errorf("there is no program for that: %w", err)
	}
	stop := killWith(ctx, r.watched)
	defer stop()
	for i, call := range first.all() {
		ok, err := r.try(call, 0)
		if err == nil && line.NoMemory(call.tried) {
			err = errMemory
		}
		if err != nil || !ok {
			r.Discard()
		}
		if err != nil {
			return nil, err
		}
		if !ok {
			return &Part{Number: i + 1, Reply: call.tried}, nil
		}
	}
	r.serial, l.beside = first.sequence, r
	if l.caught.Load() {
		l.discard() // while the front reads what it lacks the next such edits may be near
	}
	return nil, nil
}

// discard ends the program on which edits were tried.
func (l *streamed) discard() {
	if l.beside != nil {
		l.beside.Discard()
		l.beside = nil
	}
}

// tried is a program with the state of the last edit on disk: that on which edits were tried before, if there is one.
func (l *streamed) tried(ctx context.Context) (*running, error) {
	r := l.beside
	l.beside = nil
	if r == nil {
		return l.keeper.another(ctx, l.keeper.start)
	}
	if err := l.keeper.follow(ctx, r); err != nil {
		r.Discard()
		return nil, err
	}
	return r, nil
}

// refuse has none of several edits be made. The program is told a line that it refuses in their place.
func (c *Call) refuse(why *Part) {
	settle := c.settle
	c.Line, c.behind, c.group, c.part = nil, nil, nil, why
	c.settle = func(reply *Reply) {
		*reply = Reply{Err: why}
		if settle != nil {
			settle(reply)
		}
	}
}
