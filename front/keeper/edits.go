package keeper

import (
	"context"
	"fmt"

	"review-front/line"
)

// Otherwise says that there were other edits than somebody who edits knows of.
type Otherwise struct {
	Known, Serial uint64 // how many he knows of, and how many there are
}

func (o *Otherwise) Error() string {
	return fmt.Sprintf("it was to be the edit behind serial %d, and there are %d", o.Known, o.Serial)
}

// edits has one edit after another put on its way, so that a spare program is told them in their order.
type edits struct {
	turn     chan struct{} // holds something while somebody has it
	underway chan int      // how many are on their way; holds it while nobody changes it
	settled  progress      // says that none is
}

func newEdits() *edits {
	e := &edits{turn: make(chan struct{}, 1), underway: make(chan int, 1)}
	e.underway <- 0
	return e
}

// take waits for the turn until a context is done.
func (e *edits) take(ctx context.Context) error {
	select {
	case e.turn <- struct{}{}:
		return nil
	case <-ctx.Done():
		return ctx.Err()
	}
}

// give gives the turn back.
func (e *edits) give() { <-e.turn }

// begin counts edits that are put on their way, and end that one has its reply.
func (e *edits) begin(count int) { e.underway <- <-e.underway + count }

func (e *edits) end() {
	left := <-e.underway - 1
	e.underway <- left
	if left == 0 {
		e.settled.moved()
	}
}

// idle waits until none is on its way. Who has the turn knows that there will be none.
func (e *edits) idle(ctx context.Context) error {
	for {
		settled := e.settled.next()
		now := <-e.underway
		e.underway <- now
		if now == 0 {
			return nil
		}
		select {
		case <-settled:
		case <-ctx.Done():
			return ctx.Err()
		}
	}
}

// waiting is how long an edit waits for its turn: another one may be tried meanwhile.
func (k *Keeper) waiting(ctx context.Context) (context.Context, context.CancelFunc) {
	return context.WithTimeout(ctx, k.Patience+k.TryTime)
}

// after is what an edit is told that had no turn: whether its client has gone, or had to wait for too long.
func after(ctx context.Context, why error) error {
	if ctx.Err() != nil {
		return ctx.Err()
	}
	return why
}

// inTurn calls once it is the turn of an edit, and there is a spare program if there has to be one. It does so again where
// that ended, since something else may have ended it.
func (k *Keeper) inTurn(ctx context.Context, call func() error) error {
	err := k.inOneTurn(ctx, call)
	if tried, ok := err.(*Tried); ok && tried.Ended {
		err = k.inOneTurn(ctx, call)
	}
	return err
}

// inOneTurn does it once.
func (k *Keeper) inOneTurn(ctx context.Context, call func() error) error {
	limit, cancel := k.waiting(ctx)
	defer cancel()
	for {
		if k.edits.take(limit) != nil {
			return after(ctx, ErrBusy)
		}
		if k.TryTime == 0 || k.spare.stands() {
			defer k.edits.give()
			return call()
		}
		k.spare.lack()
		k.edits.give()
		select {
		case <-k.spare.ready.wait():
		case <-limit.Done():
			return after(ctx, ErrSpare)
		}
	}
}

// matches sees that there are as many edits as somebody who edits knows of. It is for who has the turn.
func (k *Keeper) matches(ctx context.Context, known *uint64) error {
	if known == nil {
		return nil
	}
	limit, cancel := k.waiting(ctx)
	defer cancel()
	if k.edits.idle(limit) != nil {
		return after(ctx, ErrBusy)
	}
	return k.otherwise(*known)
}

// otherwise says that there were other edits than somebody knows of. What campaigns have behind the last one changes
// nothing of what he read.
func (k *Keeper) otherwise(known uint64) error {
	edit := k.lastEdit.Load()
	if serial := k.serial.Load(); known > serial || known < edit {
		return &Otherwise{Known: known, Serial: serial}
	}
	return nil
}

// submitEdit puts an edit on its way in its turn.
func (k *Keeper) submitEdit(ctx context.Context, call *Call) (<-chan Reply, error) {
	call.reply = make(chan Reply, 1)
	var replies <-chan Reply
	err := k.inTurn(ctx, func() error {
		if err := k.matches(ctx, call.Known); err != nil {
			return err
		}
		sent := ctx
		if k.TryTime > 0 {
			if err := k.spare.try(call); err != nil {
				return err
			}
			// What the spare was told the table's program is told too, also where the client has gone.
			sent = context.Background()
		}
		k.count(call)
		var err error
		replies, err = k.submit(sent, k.queue, call)
		return err
	})
	if _, told := err.(*Tried); told {
		call.reply <- Reply{Err: err}
		return call.reply, nil
	}
	return replies, err
}

// count counts an edit until it has its reply, and sees that a spare program gave the same.
func (k *Keeper) count(call *Call) {
	k.edits.begin(1)
	call.settle = func(reply *Reply) {
		if call.differs != nil && (reply.Err != nil || !isAlike(reply.Body, call.tried)) {
			k.spare.differs(call.differs)
		}
		k.edits.end()
	}
}

// isAlike says whether a spare program answered an edit as the table's did. It doesn't count what campaigns have
// between edits.
func isAlike(reply, tried []byte) bool {
	table, ok := line.ReadAccepted(reply)
	spare, was := line.ReadAccepted(tried)
	return ok && was && table.Changes == spare.Changes || string(reply) == string(tried)
}
