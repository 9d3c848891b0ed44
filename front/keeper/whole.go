package keeper

import (
	"context"
	"fmt"
)

// Part says which of several edits that are made all together or not at all isn't accepted, and what is answered to it.
type Part struct {
	Number int // counted from 1
	Reply  []byte
}

func (p *Part) Error() string {
	return fmt.Sprintf("edit %d of the body is answered %s", p.Number, p.Reply)
}

// group is edits that are made all together, as far as they have their replies.
type group struct {
	first *Call
	count int
	parts []settled
}

// grouped has edits be made all together, the others behind the first.
func grouped(calls []*Call) *Call {
	together := &group{first: calls[0], count: len(calls)}
	for _, call := range calls {
		call.reply, call.group = make(chan Reply, 1), together
	}
	calls[0].behind = calls[1:]
	return calls[0]
}

// add adds one of them, and gives all once they are whole.
func (g *group) add(next settled) (settled, bool) {
	g.parts = append(g.parts, next)
	if len(g.parts) < g.count {
		return settled{}, false
	}
	first := g.parts[0]
	for _, part := range g.parts {
		part.entry.Time = first.entry.Time // nothing that goes by times parts them
	}
	first.parts = g.parts
	return first, true
}

// abandon tells those that were added that they aren't made. Edits of a stream are told to the next program.
func (g *group) abandon() {
	if g == nil {
		return
	}
	for _, part := range g.parts {
		if part.call.sequence == 0 {
			part.call.finish(Reply{Err: ErrEnded})
		}
	}
	g.parts = nil
}

// each calls for each edit that is made together with one, or for that alone.
func (s settled) each(call func(settled)) {
	if len(s.parts) == 0 {
		call(s)
	}
	for _, part := range s.parts {
		call(part)
	}
}

// Whole makes edits all together, as one record of the journal, or none of them: first they are tried on a spare program
// that has the state of the table's. `known`, if there is one, is how many edits there are to be before them.
func (k *Keeper) Whole(ctx context.Context, calls []*Call, known *uint64) ([]Reply, error) {
	if k.streamed != nil {
		return k.streamed.whole(ctx, calls, known)
	}
	beside, err := k.besideForOne(ctx)
	if err != nil {
		return nil, err
	}
	if beside != nil {
		defer beside.Discard()
	}
	if err := k.inTurn(ctx, func() error { return k.submitAll(ctx, beside, calls, known) }); err != nil {
		return nil, err
	}
	return repliesTo(ctx, calls)
}

// repliesTo waits for the replies to edits that are made all together.
func repliesTo(ctx context.Context, calls []*Call) ([]Reply, error) {
	replies := make([]Reply, len(calls))
	for i, call := range calls {
		if replies[i] = call.wait(ctx, nil); replies[i].Err != nil {
			return nil, replies[i].Err
		}
	}
	return replies, nil
}

// besideForOne is a spare program for edits of one client, if there is none that stays.
func (k *Keeper) besideForOne(ctx context.Context) (*running, error) {
	if k.TryTime > 0 {
		return nil, nil
	}
	r, err := k.another(ctx, k.start)
	if err != nil && ctx.Err() == nil {
		k.Log.Error("there is no spare program for edits that are made all together", "error", err)
		err = ErrSpare
	}
	return r, err
}

// submitAll tries edits, and puts them on their way if all are accepted. It is for who has the turn.
func (k *Keeper) submitAll(ctx context.Context, beside *running, calls []*Call, known *uint64) error {
	if err := k.matches(ctx, known); err != nil {
		return err
	}
	if err := k.tryAll(ctx, beside, calls); err != nil {
		return err
	}
	first := grouped(calls)
	for _, call := range calls {
		k.count(call)
	}
	_, err := k.submit(context.Background(), k.queue, first)
	return err
}

// tryAll tells a spare program all edits: that which stays, or one for them alone, which has to have the present state.
func (k *Keeper) tryAll(ctx context.Context, beside *running, calls []*Call) error {
	limit := k.TryTime
	r := k.spare.now
	if beside != nil {
		idle, cancel := k.waiting(ctx)
		defer cancel()
		if k.edits.idle(idle) != nil {
			return after(ctx, ErrBusy)
		}
		stop := killWith(ctx, beside.watched)
		defer stop()
		if err := k.follow(ctx, beside); err != nil {
			k.Log.Error("a spare program couldn't follow", "error", err)
			return after(ctx, ErrSpare)
		}
		limit, r = k.ReplyTime, beside
	}
	for i, call := range calls {
		if beside == nil {
			call.differs = k.spare.broken
		}
		ok, err := r.try(call, limit)
		if err == nil && ok {
			continue
		}
		if beside == nil && i > 0 {
			k.spare.differs(k.spare.broken)
		}
		if err == nil {
			err = &Part{Number: i + 1, Reply: call.tried}
		}
		return err
	}
	return nil
}
