package keeper

import (
	"errors"
	"fmt"
	"time"

	"review-front/folder"
	"review-front/keys"
	"review-front/line"
	"review-front/program"
)

// receive reads the reply to each line that was sent. When the program ends, all lines that are left are told so.
func (s *serving) receive() {
	defer close(s.replies)
	defer s.program.call.Store(nil)
	dead := false
	for call := range s.flight {
		if dead {
			s.lose(call)
			s.gone(call)
			continue
		}
		s.program.call.Store(call)
		began := time.Now()
		reply, err := s.await(call)
		if err == nil {
			err = s.read(call, reply, time.Since(began))
		}
		if err != nil {
			s.keeper.Log.Error("a line has no reply", "error", err)
			s.over.Store(true)
			s.program.Kill()
			dead = true
			call.group.abandon()
			if call.sequence != 0 {
				s.keeper.streamed.ended(call.sequence, errors.Is(err, errMemory))
			}
			s.lose(call)
		}
		s.gone(call)
	}
}

// lose is for a line to which the program gives no reply. An edit of a stream is told to the next program.
func (s *serving) lose(call *Call) {
	if call.to != nil {
		call.heard(ErrEnded)
		return
	}
	if call.sequence == 0 {
		call.finish(Reply{Err: call.lost()})
		return
	}
	s.unanswered = anew(s.unanswered, call)
}

// anew adds an edit of a stream that the next program is told: of those that are made all together the first, once.
func anew(calls []*Call, lost *Call) []*Call {
	if lost.group != nil {
		lost = lost.group.first
		lost.group.parts = nil
		if last := len(calls) - 1; last >= 0 && calls[last] == lost {
			return calls
		}
	}
	return append(calls, lost)
}

// await waits for the reply to a line.
func (s *serving) await(call *Call) (program.Reply, error) {
	if call.to != nil {
		wrote, err := s.program.ReceiveTo(call.to)
		if err == nil {
			call.heard(wrote)
		}
		return program.Reply{}, err
	}
	if call.IsLong() {
		return s.program.ReceiveLong(s.keeper.Spool)
	}
	body, err := s.program.Receive()
	return program.Reply{Body: body}, err
}

// read hands a reply on, which took so long: at once where no edit before it waits for the disk.
func (s *serving) read(call *Call, said program.Reply, took time.Duration) error {
	k := s.keeper
	if call.to != nil {
		return nil // what it was for has it
	}
	next := settled{call: call}
	if call.act != nil {
		said.Body = s.acted(&next)
	}
	if accepted, ok := line.ReadAccepted(said.Body); ok {
		if err := s.number(call, accepted); err != nil {
			return err
		}
		k.took.Add(int64(took))
		k.ladder.Accepted(s.program.serial, accepted.Changes, took)
		next.entry = call.entry(s.program.serial, accepted.Changes)
	} else if call.sequence != 0 && line.NoMemory(said.Body) {
		return errMemory // others may have had it
	}
	if next.reply = s.told(call, said); call.act != nil {
		next.reply.Err = call.act.refused
	}
	if call.group != nil {
		if next.entry == nil {
			return fmt.Errorf("one of %d edits that a spare program accepted is answered %.200s", call.group.count, said.Body)
		}
		var whole bool
		if next, whole = call.group.add(next); !whole {
			return nil
		}
	}
	// Once an edit couldn't be kept, what the program still says knows of it: that goes the way on which it is
	// dropped.
	if !next.isKept() && s.unsettled.Load() == 0 && !s.over.Load() {
		call.finish(next.reply)
		return nil
	}
	s.unsettled.Add(1)
	s.replies <- next
	return nil
}

// told makes what the program said the reply to a call.
func (s *serving) told(call *Call, said program.Reply) Reply {
	said, err := s.client(call, said)
	if err != nil {
		said.Lose(err)
	}
	if said.Lost != nil {
		s.keeper.Log.Error("a reply is given up", "error", said.Lost)
		return Reply{Err: ErrSpool, Serial: s.program.serial}
	}
	body := s.program.numbered(said.Body)
	if count, ok := line.ReadEvaluations(body); ok && s.keeper.shifted != 0 {
		body = line.EvaluationsReply(count + s.keeper.shifted)
	}
	return Reply{Body: body, Rest: said.Rest, Serial: s.program.serial}
}

// number gives an edit that the program accepted its serial.
func (s *serving) number(call *Call, said line.Accepted) error {
	r := s.program
	serial := r.serial + 1
	if s.keeper.streamed != nil {
		if serial = call.sequence; serial == 0 {
			return fmt.Errorf("a line that isn't of the stream is accepted: %w", errDamage)
		}
	}
	if said.Serial != r.numbers.own+1 {
		return fmt.Errorf("edit %d of the program is told as %d: %w", r.numbers.own+1, said.Serial, errDamage)
	}
	r.serial = serial
	r.numbers.add(serial)
	return nil
}

// entry is the edit as the journal has it.
func (c *Call) entry(serial, changes uint64) *folder.Entry {
	at := c.at
	if c.sequence == 0 && c.act == nil {
		at = time.Now()
	}
	return &folder.Entry{Time: at, By: c.By, Serial: serial, Changes: changes, Line: c.Line}
}

// commit sees that edits are on disk, as many together as there are, and hands replies out in their order.
func (s *serving) commit() {
	failed := false
	batch := make([]settled, 0, together)
	for first := range s.replies {
		batch = s.batch(append(batch[:0], first))
		if !failed {
			failed = !s.settle(batch)
		} else {
			s.fail(batch)
		}
		s.unsettled.Add(-int64(len(batch)))
	}
}

// batch adds to a batch what else is there.
func (s *serving) batch(batch []settled) []settled {
	for len(batch) < together {
		select {
		case next, open := <-s.replies:
			if !open {
				return batch
			}
			batch = append(batch, next)
		default:
			return batch
		}
	}
	return batch
}

// isKept says whether something of a reply has to be on disk before it leaves, or known in its order.
func (s settled) isKept() bool {
	_, marked := s.isMark()
	return marked || s.entry != nil || s.call.Remember != nil || s.call.sequence != 0
}

// settle writes the edits of a batch, and replies that are remembered, and hands its replies out. Those before the
// first of these don't wait for the disk. Where writing fails, no reply leaves that knows of an edit which isn't
// kept, and the program is killed.
func (s *serving) settle(batch []settled) bool {
	k := s.keeper
	for len(batch) > 0 && !batch[0].isKept() {
		batch[0].call.finish(batch[0].reply)
		batch = batch[1:]
	}
	if len(batch) == 0 {
		return true
	}
	if err := k.write(batch); err != nil {
		k.Log.Error("edits can't be kept, and the program is started anew", "error", err)
		k.Meter.JournalFailed()
		k.unkeeps(err)
		k.repaired.Store(time.Now().UnixNano())
		s.over.Store(true)
		s.program.Kill()
		s.fail(batch)
		return false
	}
	k.mark(batch)
	k.streamed.applies(batch)
	for _, next := range batch {
		next.each(func(one settled) { one.call.finish(one.reply) })
	}
	return true
}

// remembered is what is remembered of the reply to a line of a body with a key, whoever waits for it: another front may
// be asked for it next.
func (c *Call) remembered(reply Reply) (told keys.Told, is bool) {
	switch {
	case c.Remember == nil || line.NoMemory(reply.Body):
		return told, false
	case c.part != nil:
		return keys.Told{Line: *c.Remember, Part: c.part.Number, Reply: c.part.Reply, Serial: reply.Serial, At: c.at}, true
	}
	return keys.Told{Line: *c.Remember, Reply: reply.Body, Serial: reply.Serial, At: c.at}, true
}

// write brings the edits of a batch to the disk, and before them the replies that are remembered.
func (k *Keeper) write(batch []settled) error {
	var entries []folder.Entry
	var told []keys.Told
	for _, next := range batch {
		first := len(entries)
		next.each(func(one settled) {
			if one.entry != nil {
				entries = append(entries, *one.entry)
			}
			if reply, is := one.call.remembered(one.reply); is {
				told = append(told, reply)
			}
		})
		if len(next.parts) > 0 {
			entries[first].Together = len(next.parts)
		}
	}
	began := time.Now()
	if err := k.Keys.Append(told); err != nil {
		return err
	}
	if len(entries) == 0 {
		return nil
	}
	if err := k.Folder.Append(entries); err != nil {
		k.Keys.Undo()
		return err
	}
	k.Meter.Committed(len(entries), time.Since(began))
	if k.Edited != nil {
		k.Edited(entries)
	}
	k.askers.tell(entries)
	k.spare.tell(entries)
	k.recorder.tell(entries)
	k.provisioning.tell(entries)
	for _, entry := range entries {
		if !entry.IsRecord() {
			k.lastEdit.Store(entry.Serial)
		}
	}
	k.accepted(entries[len(entries)-1].Serial)
	return nil
}

// accepted says that edits up to a serial are on disk.
func (k *Keeper) accepted(serial uint64) {
	k.serial.Store(serial)
	k.reached.moved()
	k.changed()
	k.want()
}

// want has a snapshot made, if there is a reason.
func (k *Keeper) want() {
	if k.wants() {
		select {
		case k.asked <- struct{}{}:
		default:
		}
	}
}

// wants says whether there were so many edits since the last snapshot, or such that took so long, that another is
// made.
func (k *Keeper) wants() bool {
	edits := k.serial.Load() - k.tried.Load()
	many := k.SnapshotEvery != 0 && edits >= k.SnapshotEvery
	many = many || k.KeepDaily > 0 && edits > 0 && k.day.Load() != dayOf(time.Now())
	return many || k.ReplayTime != 0 && edits > 0 && k.took.Load() > int64(k.ReplayTime)
}

// fail tells the clients of a batch that their lines have no reply. Edits of a stream are told to the next program.
func (s *serving) fail(batch []settled) {
	for _, next := range batch {
		next.each(func(one settled) {
			one.reply.Drop()
			if one.call.sequence != 0 {
				s.unkept = anew(s.unkept, one.call)
				return
			}
			reply := Reply{Err: ErrAfter}
			if one.entry != nil {
				reply.Err = ErrJournal
			}
			one.call.finish(reply)
		})
	}
}
