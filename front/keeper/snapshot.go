package keeper

import (
	"bytes"
	"context"
	"encoding/json"
	"errors"
	"fmt"
	"time"

	"review-front/folder"
)

var dumping = []byte(`{"do":"dump"}`)

// errSnapshot says that a dump doesn't make a second program the same.
var errSnapshot = errors.New("the dump doesn't stand for the state")

// snapshots makes a snapshot whenever one is wanted, until the context is done.
func (k *Keeper) snapshots(ctx context.Context) {
	for {
		select {
		case <-ctx.Done():
			return
		case <-k.asked:
		}
		if !k.wants() {
			continue // it was made while this was asked
		}
		// Of one that fails the next is made after as many edits again.
		k.tried.Store(k.Folder.Last())
		k.took.Store(0)
		k.day.Store(dayOf(time.Now()))
		reply, err := k.beside(ctx)
		if ctx.Err() != nil {
			return
		}
		if err != nil {
			k.Meter.Snapshot(false, 0)
			k.Log.Error("no snapshot was made", "error", err)
			continue
		}
		_ = k.keep(ctx, reply)
	}
}

// dayOf numbers a day.
func dayOf(at time.Time) int64 { return at.Unix() / int64(24*time.Hour/time.Second) }

// beside brings another program to the state of the last edit on disk, and gives its dump. The one that serves isn't
// asked, which would answer nothing else meanwhile.
func (k *Keeper) beside(ctx context.Context) (Reply, error) {
	r, err := k.another(ctx, k.aside)
	if err != nil {
		return Reply{}, err
	}
	stop := killWith(ctx, r.watched)
	defer stop()
	defer r.Close()
	dump, err := exchange(r.watched, dumping)
	return Reply{Body: dump, Serial: r.serial}, err
}

// aside starts a program that holds nothing, and yields to the one that serves while one does.
func (k *Keeper) aside() (*watched, error) {
	w, err := k.start()
	if err == nil && k.ready.is() {
		w.Yield()
	}
	return w, err
}

// keep makes a snapshot of the reply to a dump, if a second program that is told it comes to the same dump. Else the
// journal and the old snapshot stay.
func (k *Keeper) keep(ctx context.Context, reply Reply) error {
	began := time.Now()
	err := k.verified(ctx, reply)
	if ctx.Err() != nil {
		return ctx.Err()
	}
	took := time.Since(began)
	k.Meter.Snapshot(err == nil, took)
	if err != nil {
		k.Log.Error("no snapshot was made; the journal and the old one stay", "serial", reply.Serial, "error", err)
		return err
	}
	k.snapshot.Store(reply.Serial)
	k.Log.Info("a snapshot was made", "serial", reply.Serial, "took", took)
	k.headOf(reply.Serial)
	if err := k.Folder.Rotate(); err != nil {
		k.Log.Error("no new journal was begun; the old one goes on", "error", err)
		return nil
	}
	before := time.Time{}
	if k.Keep != 0 {
		before = k.needed(time.Now().Add(-k.Keep))
	}
	first := k.Folder.First()
	if err := k.Folder.Trim(k.ladder.Floor(k.need()), before); err != nil {
		k.Log.Error("what is old couldn't be taken away", "error", err)
	}
	if k.Heads != nil && k.Folder.First() != first {
		serial, chain := k.Folder.Begun()
		k.Heads.Make(serial, chain, "kept")
	}
	return nil
}

// headOf makes the head of a snapshot.
func (k *Keeper) headOf(snapshot uint64) {
	if k.Heads == nil {
		return
	}
	chain, err := k.Folder.ChainAt(snapshot)
	if err != nil {
		k.Log.Error("a snapshot has no head", "serial", snapshot, "error", err)
		return
	}
	k.Heads.Make(snapshot, chain, "snapshot")
}

// verified tells the lines of a dump to a second program, compares its dump, and writes them.
func (k *Keeper) verified(ctx context.Context, reply Reply) error {
	var dump struct{ Dump []string }
	if err := json.Unmarshal(reply.Body, &dump); err != nil || len(dump.Dump) == 0 {
		return fmt.Errorf("%w: it is answered %.200s", errSnapshot, reply.Body)
	}
	snapshot := &folder.Snapshot{Serial: reply.Serial}
	for _, l := range dump.Dump {
		snapshot.Lines = append(snapshot.Lines, []byte(l))
	}
	if err := k.second(ctx, snapshot, reply.Body); err != nil {
		return err
	}
	var err error
	if snapshot.Records, err = k.scimAt(reply.Serial); err != nil {
		return err
	}
	return k.Folder.Keep(snapshot)
}

// second sees that a program which holds nothing accepts each line of a snapshot, and tells the same dump.
func (k *Keeper) second(ctx context.Context, snapshot *folder.Snapshot, dump []byte) error {
	w, err := k.aside()
	if err != nil {
		return err
	}
	stop := killWith(ctx, w)
	defer stop()
	replay := begin(ctx, w, false)
	_, err = replay.snapshotLines(snapshot, nil)
	if err = replay.end(err); err != nil {
		w.Discard()
		return fmt.Errorf("%w: %v", errSnapshot, err)
	}
	told, err := exchange(w, dumping)
	w.Close()
	if err != nil {
		return err
	}
	if !bytes.Equal(told, dump) {
		return fmt.Errorf("%w: a second program tells another dump", errSnapshot)
	}
	return nil
}
