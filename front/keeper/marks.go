package keeper

import (
	"context"
	"math"
	"time"

	"review-front/ladder"
	"review-front/line"
	"review-front/marks"
	"review-front/notices"
	"review-front/program"
	"review-front/sessions"
)

// Prepare makes a call of a line. A mark is the serial at which the program comes to it, and notices are what changed
// since: the program marks nothing for a client.
func Prepare(l []byte, by string, client *sessions.Client) (*Call, error) {
	call := question(l)
	call.By = by
	_, number := line.Read(l)
	switch call.kind {
	case line.Mark:
		session, err := client.Marking(int(number))
		if err != nil {
			return nil, err
		}
		call.session = session
		call.settle = func(reply *Reply) {
			at, marked := line.ReadMark(reply.Body)
			session.Settled(at, marked && reply.Err == nil)
		}
	case line.Notices:
		call.session = client.Noticing(int(number))
	}
	return call, nil
}

// question is a call of a line that needs no session.
func question(l []byte) *Call {
	kind, number := line.Read(l)
	call := &Call{Line: l, kind: kind}
	switch kind {
	case line.Mark, line.Notices:
		call.Line = working
	case line.Changes:
		call.since, call.asks = number, true
	}
	return call
}

// known waits until it is known since which serial a client's notices are.
func (c *Call) known(ctx context.Context) (err error) {
	if c.kind == line.Notices && c.session != nil {
		c.since, c.asks, err = c.session.At(ctx)
	}
	return err
}

// address has a line ask since a serial as this program counts them.
func (s *serving) address(call *Call) {
	if !call.asks {
		return
	}
	own, known := s.program.numbers.ownOf(call.since, s.keeper.streamed == nil, s.keeper.serial.Load())
	if call.unknown = !known; call.unknown {
		call.Line = working
	} else {
		call.Line = line.Changing(own)
	}
}

// client makes what the program said a reply to what a client asked.
func (s *serving) client(call *Call, said program.Reply) (program.Reply, error) {
	_, worked := line.ReadEvaluations(said.Body)
	switch {
	case call.kind == line.Mark && worked:
		return program.Reply{Body: line.MarkReply(s.program.numbers.own)}, nil
	case (call.kind == line.Notices && !call.asks || call.unknown) && worked:
		return program.Reply{Body: []byte(line.NoMark)}, nil
	case !line.IsChanges(said.Body):
		return said, nil
	case call.kind == line.Notices:
		line.AsNotices(said.Body)
		return said.End(line.SerialBytes, line.CutSerial)
	case call.kind == line.Changes && !s.program.numbers.isSame():
		return said.End(line.SerialBytes, func(end []byte) (int, []byte, bool) {
			return line.RenumberSerial(end, s.program.numbers.of)
		})
	}
	return said, nil
}

// isMark says whether a reply is a mark that stays over a start of the front, and which.
func (s settled) isMark() (marks.Mark, bool) {
	if s.call.kind != line.Mark || s.reply.Err != nil {
		return marks.Mark{}, false
	}
	at, marked := line.ReadMark(s.reply.Body)
	name, number, stays := s.call.session.Stays()
	return marks.Mark{Client: name, Number: number, Serial: at}, marked && stays
}

// mark brings the marks of a batch to the disk. Where that can't be done these have no reply, and all others have
// theirs.
func (k *Keeper) mark(batch []settled) {
	var kept []marks.Mark
	for _, next := range batch {
		if mark, ok := next.isMark(); ok {
			kept = append(kept, mark)
		}
	}
	if len(kept) == 0 {
		return
	}
	err := k.Marks.Append(kept)
	if err == nil {
		return
	}
	k.Log.Error("marks can't be kept", "error", err)
	for i := range batch {
		if _, ok := batch[i].isMark(); ok {
			batch[i].reply = Reply{Err: ErrMark}
		}
	}
}

// Remember remembers a client who stays over a start of the front.
func (k *Keeper) Remember(name string) {
	if err := k.Marks.Came(name); err != nil {
		k.Log.Error("a session can't be written", "error", err)
	}
}

// Forget forgets a client who stays no more.
func (k *Keeper) Forget(name string) {
	if err := k.Marks.Gone(name); err != nil {
		k.Log.Error("a session's end can't be written", "error", err)
	}
}

// Missed says since which serial it was asked what changed, where the program doesn't know it any more, and whether by
// `notices`.
func (c *Call) Missed(reply Reply) (since uint64, notices, missed bool) {
	missed = c.asks && reply.Err == nil && string(reply.Body) == line.NoMark && c.since <= reply.Serial
	return c.since, c.kind == line.Notices, missed
}

// tell asks what changed since the last time, for those who listen, and since what others have heard who come back, all
// at one serial: no edit comes between. Then it marks.
func (s *serving) tell() {
	if s.over.Load() || s.telling.Swap(true) {
		return // what changed since is told when this is
	}
	k := s.keeper
	round := k.Notices.Begin()
	if round.Any {
		for heard, event := range round.Back {
			s.returning(heard, event)
		}
		s.all(round)
	} else {
		s.telling.Store(false)
	}
	if err := k.Marks.Listens(k.Notices.Expects()); err != nil {
		k.Log.Error("that somebody listens can't be written", "error", err)
	}
	for _, session := range k.ladder.Due(k.need()) {
		s.rung(session)
	}
}

// need is since which serial somebody may ask what changed: since a client's mark, or a while ago where somebody
// listens, who may come back.
func (k *Keeper) need() uint64 {
	need := k.Sessions.Oldest(k.ladder.First(), math.MaxUint64) // an older one is lost
	if recent := k.ladder.Recent(time.Now()); recent < need && k.Notices.Expects() {
		return recent
	}
	return need
}

// returning asks what changed since what somebody has heard.
func (s *serving) returning(heard uint64, event *notices.Event) {
	if s.keeper.Spool.Full() {
		return
	}
	s.send(&Call{kind: line.Notices, since: heard, asks: true, reply: make(chan Reply, 1), settle: func(reply *Reply) {
		if reply.Err == nil && line.IsNotices(reply.Body) {
			event.Kind, event.Data, event.Rest = notices.Told, reply.Body, reply.Rest
		} else {
			reply.Drop()
		}
	}})
}

// all asks what changed since the last time, if anybody listens, and tells it.
func (s *serving) all(round *notices.Round) {
	k := s.keeper
	call := &Call{Line: working, kind: line.Light, own: true, reply: make(chan Reply, 1)}
	if round.All {
		call.kind, call.since, call.asks = line.Notices, round.Since, true
	}
	call.settle = func(reply *Reply) {
		var told []byte
		if line.IsNotices(reply.Body) {
			told = reply.Body
		}
		failed := reply.Err != nil || line.NoMemory(reply.Body)
		if failed {
			k.Notices.Fail(round)
		} else {
			k.Notices.Tell(round, reply.Serial, told)
		}
		s.telling.Store(false)
		if failed {
			time.AfterFunc(tellPause, k.changed)
		} else if k.serial.Load() != reply.Serial || k.Notices.Waits() {
			k.changed()
		}
	}
	s.send(call)
}

// rung marks in a session of the program.
func (s *serving) rung(session int) {
	k := s.keeper
	s.own(line.Marking(session), func(reply *Reply) {
		at, marked := line.ReadMark(reply.Body)
		if made, ok := k.ladder.Made(session, at, marked && reply.Err == nil, time.Now()); ok {
			k.stood(made)
		}
	})
}

// stood keeps where the program's marks stand, of which one is new.
func (k *Keeper) stood(made ladder.Rung) {
	if err := k.Marks.Stood(k.ladder.Rungs(), made); err != nil {
		k.Log.Error("where the program marked can't be written", "error", err)
	}
}

// resume has the marks of before a start, of clients and of the program.
func (k *Keeper) resume(last uint64) error {
	torn, err := k.Marks.Recover(last)
	if err != nil {
		return err
	}
	k.tellTorn(torn, "what a crash left behind the last mark is dropped")
	k.Sessions.Restore(k.Marks.Clients())
	need := k.Sessions.Oldest(0, math.MaxUint64)
	if k.Marks.Listened() {
		k.Notices.Expect()
		need = 0 // as far as a start has time
	}
	k.ladder.Resume(append([]ladder.Rung(nil), k.Marks.Rungs()...), need, last, time.Now())
	return nil
}
