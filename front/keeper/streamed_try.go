package keeper

import (
	"context"

	"review-front/folder"
	"review-front/line"
)

// tell has the spare program be told edits that came to the disk through a stream. It is for everybody.
func (s *spare) tell(edits []folder.Entry) {
	if s.keeper.TryTime == 0 || s.keeper.streamed == nil {
		return
	}
	s.mutex.Lock()
	defer s.mutex.Unlock()
	s.news = append(s.news, edits...)
	select {
	case s.moved <- struct{}{}:
	default:
	}
}

// had says at which sequence the stream brought an edit that a spare program had when it was tried. It is for everybody.
func (s *spare) had(call *Call) {
	if call.differs == nil {
		return
	}
	s.mutex.Lock()
	defer s.mutex.Unlock()
	s.own[call.sequence] = call.differs
}

// due are the edits that the present spare program is to be told, behind those that it had when it was built or tried
// them.
func (s *spare) due() (edits []folder.Entry) {
	s.mutex.Lock()
	defer s.mutex.Unlock()
	var last uint64
	for _, entry := range s.news {
		last = entry.Serial
		if last > s.now.serial && s.own[last] != s.broken && !entry.IsRecord() {
			edits = append(edits, entry)
		}
	}
	for sequence := range s.own {
		if sequence <= last {
			delete(s.own, sequence)
		}
	}
	s.news = nil
	return edits
}

// follow tells the spare program what came through the stream since. Its own edits may stand in another order there:
// where it doesn't accept what the table's program did another one is made. It is for who has the turn.
func (s *spare) follow(ctx context.Context) {
	if !s.stands() {
		return // the next one has them from the disk
	}
	replay := begin(ctx, s.now.watched, false)
	var err error
	for _, entry := range s.due() {
		if err == nil {
			s.now.numbers.add(entry.Serial)
			accepted := isEdit(s.now.numbers.own)
			err = replay.send(expected{line: entry.Line, place: text("an edit of the stream"), check: accepted})
		}
	}
	if err = replay.end(err); err != nil && ctx.Err() == nil {
		s.keeper.Log.Error("a spare program couldn't follow", "error", err)
	}
	if err != nil {
		s.differs(s.broken)
	}
}

// stay has the spare program follow until another one is wanted, or the context is done.
func (s *spare) stay(ctx context.Context) {
	for {
		select {
		case <-s.wanted:
			return
		case <-s.moved:
			if s.keeper.edits.take(ctx) != nil {
				return
			}
			s.follow(ctx)
			s.keeper.edits.give()
		case <-ctx.Done():
			return
		}
	}
}

// turn waits for the turn of an edit, and has it tried, unless it was.
func (l *streamed) turn(ctx context.Context, call *Call) error {
	k := l.keeper
	for again := false; ; {
		if k.edits.take(ctx) != nil {
			return ErrBusy
		}
		if k.TryTime == 0 || call.tried != nil || call.act != nil {
			return nil
		}
		k.spare.follow(ctx)
		if k.spare.stands() {
			err := l.try(ctx, call)
			if err == nil {
				return nil
			}
			k.edits.give()
			if tried, ok := err.(*Tried); !ok || !tried.Ended || again {
				return err
			}
			again = true // something else may have ended it
			continue
		}
		k.spare.lack()
		k.edits.give()
		select {
		case <-k.spare.ready.wait():
		case <-ctx.Done():
			return ErrSpare
		}
	}
}

// try tells the spare program an edit, or several that are made all together: these aren't appended where one is
// refused.
func (l *streamed) try(ctx context.Context, call *Call) error {
	k := l.keeper
	if call.Known != nil {
		if _, err := l.behind(ctx, *call.Known); err != nil {
			return err
		}
	}
	serial := k.spare.now.serial
	for i, one := range call.all() {
		one.differs = k.spare.broken
		ok, err := k.spare.now.try(one, k.TryTime)
		k.spare.now.serial = serial // which it goes on from, and no sequence
		if err == nil && (ok || call.group == nil) {
			continue
		}
		if err == nil {
			err = &Part{Number: i + 1, Reply: one.tried}
		}
		k.spare.differs(k.spare.broken)
		return err
	}
	return nil
}

// wasTried sees that an edit was made as the spare program made it, or else has another one made.
func (l *streamed) wasTried(call *Call, reply Reply) {
	if call.differs == nil {
		return
	}
	_, spare := line.ReadAccepted(call.tried)
	_, table := line.ReadAccepted(reply.Body)
	if reply.Err != nil || spare != table {
		l.keeper.spare.differs(call.differs)
	}
}
