package keeper

import (
	"context"
	"fmt"
	"time"

	"review-front/changed"
	"review-front/folder"
	"review-front/line"
)

const (
	// batchEdits and batchChanges are of how many edits, and changed answers, replies are due at a time.
	batchEdits   = 256
	batchChanges = 100_000
)

// asking asks the recorder's program what changed since the mark before the last edit.
var (
	marking  = line.Marking(0)
	noticing = []byte(`{"do":"notices"}`)
)

// record learns what edits changed of which nothing is kept yet, from the oldest on.
func (p *recorder) record(ctx context.Context) error {
	k := p.keeper
	for {
		behind, missing := p.book.Missing(p.floor.Load(), p.latest.Load())
		if !missing {
			return nil
		}
		if p.now != nil && (p.now.serial > behind || k.Reads != 0 && p.now.Looks() >= k.Reads) {
			p.rest()
		}
		if p.now == nil {
			if err := p.build(ctx, behind); err != nil {
				return err
			}
		}
		var err error
		if news := p.take(p.now.serial); len(news) > 0 {
			err = p.batches(ctx, news)
		} else {
			err = p.read(ctx)
		}
		if err != nil {
			return err
		}
	}
}

// build brings a program to the state of a snapshot before an edit, or else to the first that there is.
func (p *recorder) build(ctx context.Context, behind uint64) error {
	k := p.keeper
	snapshot, _, err := k.Folder.Base(behind)
	if err != nil {
		return err
	}
	if snapshot.Serial > behind {
		k.Log.Info("what edits changed can't be known any more", "until", snapshot.Serial)
		p.floor.Store(snapshot.Serial)
	}
	w, err := k.aside()
	if err != nil {
		return err
	}
	stop := killWith(ctx, w)
	defer stop()
	r := &running{watched: w, serial: snapshot.Serial}
	replay := begin(ctx, w, false)
	edits, err := replay.snapshotLines(snapshot, nil)
	r.numbers = from(edits, snapshot.Serial)
	if err = replay.end(err); err != nil {
		w.Discard()
		return err
	}
	p.now = r
	return nil
}

// read tells the program edits of the journal.
func (p *recorder) read(ctx context.Context) error {
	var some []folder.Entry
	changes := uint64(0)
	err := p.keeper.Folder.Each(p.now.serial, func(entry folder.Entry, _ folder.Place) error {
		if len(some) > 0 && some[len(some)-1].Serial < entry.Serial && isBatch(len(some), changes) {
			if err := p.batch(ctx, some); err != nil {
				return err
			}
			some, changes = some[:0], 0
		}
		some = append(some, entry)
		changes += entry.Changes
		return nil
	})
	if err == nil && len(some) > 0 {
		err = p.batch(ctx, some)
	}
	return err
}

// batches tells it edits, some at a time.
func (p *recorder) batches(ctx context.Context, entries []folder.Entry) error {
	for len(entries) > 0 {
		count, changes := 0, uint64(0)
		for count < len(entries) {
			if count > 0 && entries[count-1].Serial < entries[count].Serial && isBatch(count, changes) {
				break
			}
			changes += entries[count].Changes
			count++
		}
		if err := p.batch(ctx, entries[:count]); err != nil {
			return err
		}
		entries = entries[count:]
	}
	return nil
}

// isBatch says whether so many edits are enough at a time.
func isBatch(edits int, changes uint64) bool { return edits >= batchEdits || changes >= batchChanges }

// wanted is an edit that the program is told, and whether it is kept, and asked, what it changed.
type wanted struct {
	folder.Entry
	kept, asked bool
}

// batch tells the program edits, and keeps what they changed. Those of one serial aren't parted.
func (p *recorder) batch(ctx context.Context, entries []folder.Entry) error {
	old := time.Time{}
	if keep := p.keeper.KeepHistory; keep > 0 {
		old = p.keeper.needed(time.Now().Add(-keep))
	}
	all := make([]wanted, 0, len(entries))
	before := p.now.serial
	for _, entry := range entries {
		w := wanted{Entry: entry, kept: entry.Serial > p.floor.Load() && !p.book.Has(entry.Serial)}
		if w.kept && entry.Time.Before(old) {
			w.kept = false
			p.floor.Store(entry.Serial)
		}
		w.asked = w.kept && entry.Changes > 0 && !(before == p.failed && p.tries >= recordTries)
		all, before = append(all, w), entry.Serial
	}
	stop := killWith(ctx, p.now.watched)
	defer stop()
	sent := make(chan error, 1)
	go func() { sent <- p.send(all) }()
	err := p.receive(all)
	if err != nil {
		p.now.Kill()
		if p.failed != p.now.serial {
			p.failed, p.tries = p.now.serial, 0
		}
		p.tries++
	}
	if unsent := <-sent; err == nil {
		err = unsent
	}
	return err
}

// send sends the lines of edits, and what is asked around them.
func (p *recorder) send(all []wanted) error {
	for _, one := range all {
		lines := [][]byte{marking, one.Line, noticing}
		switch {
		case one.IsRecord():
			lines = nil
		case !one.asked:
			lines = lines[1:2]
		}
		for _, l := range lines {
			if err := p.now.Send(l); err != nil {
				return err
			}
		}
	}
	return p.now.Flush()
}

// receive reads the replies, and keeps what edits changed.
func (p *recorder) receive(all []wanted) error {
	r := p.now
	for _, one := range all {
		if one.asked {
			if err := r.expects(isMark); err != nil {
				return err
			}
		}
		if !one.IsRecord() {
			r.numbers.add(one.Serial)
			if err := r.expects(isSame(one.Changes, r.numbers.own)); err != nil {
				return fmt.Errorf("edit %d: %w", one.Serial, err)
			}
		}
		if err := p.keep(one); err != nil {
			return err
		}
		r.serial = one.Serial
	}
	p.reached.moved()
	return nil
}

// expects reads a reply that is to be so.
func (r *running) expects(check func([]byte) (string, bool)) error {
	reply, err := r.Receive()
	if err != nil {
		return err
	}
	if what, ok := check(reply); !ok {
		return fmt.Errorf("%w: %s", errDamage, what)
	}
	return nil
}

// keep keeps what an edit changed.
func (p *recorder) keep(one wanted) error {
	if !one.kept {
		return nil
	}
	pack, err := p.book.Pack(changed.Of(one.Entry), p.now.serial)
	if err != nil {
		return err
	}
	if one.asked {
		wrote, err := p.now.ReceiveTo(pack)
		if err == nil {
			err = wrote
		}
		if err != nil {
			pack.Drop()
			return err
		}
		if other, is := pack.Other(); is && line.NoMemory(other) {
			p.keeper.Log.Error("the program has no memory to tell what an edit changed, which isn't known", "serial", one.Serial)
			pack.Unlearned()
		} else if is {
			pack.Drop()
			return fmt.Errorf("what edit %d changed is told as %.200s", one.Serial, other)
		}
	}
	return pack.Keep()
}
