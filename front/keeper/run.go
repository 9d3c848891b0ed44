package keeper

import (
	"context"
	"errors"
	"fmt"
	"sync"
	"time"

	"review-front/folder"
	"review-front/frame"
	"review-front/line"
)

const (
	firstPause = 100 * time.Millisecond
	lastPause  = 5 * time.Second
	// versionTime is how long the program may take at least to say its version.
	versionTime = time.Minute
)

// Start brings a first program to the state of the folder, or says why there is none, with file and place.
func (k *Keeper) Start(ctx context.Context) (*Started, error) {
	err := k.recover()
	if err != nil {
		return nil, err
	}
	name := ""
	if k.streamed != nil {
		if name, err = k.streamed.begin(ctx); err != nil {
			return nil, err
		}
	}
	if held := k.Folder.Limits(); !k.Command.Limits.Hold(held) {
		return nil, fmt.Errorf("the folder is of a program with %v, and this one has %v", held, k.Command.Limits)
	}
	if err := k.Keys.Recover(k.Folder.Last()); err != nil {
		return nil, err
	}
	if err := k.resume(k.Folder.Last()); err != nil {
		return nil, err
	}
	if err := k.recorder.open(); err != nil {
		return nil, err
	}
	if err := k.resumeCampaigns(ctx); err != nil {
		return nil, err
	}
	if err := k.resumeScim(); err != nil {
		return nil, err
	}
	if k.version, err = k.says(ctx); err != nil {
		return nil, err
	}
	r, err := k.build(ctx, k.ladder.Marks(0))
	if err != nil {
		return nil, err
	}
	k.stands(r)
	k.ladder.Anew(r.marks)
	for _, rung := range k.ladder.Rungs() {
		k.stood(rung)
	}
	k.changed()
	k.reached.moved()
	k.want()
	err = k.Folder.Begin(folder.Head{
		Program: k.version, AttributeModules: k.Command.AttributeModules, PolicyModules: k.Command.PolicyModules,
		Limits: k.Command.Limits, Stream: name,
	})
	if err != nil {
		k.unkeeps(err)
		k.Log.Error("edits are refused until a journal can be written", "error", err)
	}
	return &Started{keeper: k, first: r}, nil
}

// recover reads the folder up to its last edit.
func (k *Keeper) recover() error {
	snapshots, err := k.Folder.Snapshots()
	if err != nil {
		return err
	}
	newest := uint64(0)
	if len(snapshots) > 0 {
		newest = snapshots[len(snapshots)-1]
	}
	k.snapshot.Store(newest)
	k.tried.Store(newest)
	k.day.Store(dayOf(k.Folder.Made(newest)))
	torn, err := k.Folder.Recover(newest)
	if err != nil {
		return err
	}
	k.tellTorn(torn, "what a crash left behind the last edit is dropped")
	if !k.Folder.Chained() {
		k.Log.Info("some journals are of the first format, in which no change of an old one can be seen")
	}
	return nil
}

// stands says which state a program has that is served next.
func (k *Keeper) stands(r *running) {
	k.lastEdit.Store(r.edit)
	k.serial.Store(r.serial)
}

// tellTorn logs what was dropped, if something was.
func (k *Keeper) tellTorn(torn *folder.Torn, what string) {
	if torn != nil {
		k.Log.Info(what, "file", torn.File, "byte", torn.Place, "bytes", torn.Bytes, "what", torn.What)
	}
}

// says is what the program says of its version. That has to be started first, which takes a while on a busy machine.
func (k *Keeper) says(ctx context.Context) (string, error) {
	if k.ReplyTime > 0 {
		limit := k.ReplyTime
		if limit < versionTime {
			limit = versionTime
		}
		var cancel context.CancelFunc
		ctx, cancel = context.WithTimeout(ctx, limit)
		defer cancel()
	}
	return k.Command.Version(ctx)
}

// Started is a keeper whose first program has its state.
type Started struct {
	keeper *Keeper
	first  *running
}

// Run serves lines until the context is done, and then leaves a snapshot, if the time for the end is enough. It ends
// earlier where no program can be brought to the state of the journal.
func (s *Started) Run(ctx context.Context) error {
	k, r := s.keeper, s.first
	defer k.Keys.Close()
	defer k.Marks.Close()
	limit, over := later(ctx, k.EndingTime)
	defer over()
	ctx, stop := context.WithCancel(ctx)
	defer stop()
	background, cancel := context.WithCancel(ctx)
	var done sync.WaitGroup
	done.Add(12)
	var differs error
	go func() {
		defer done.Done()
		if differs = k.streamed.compares(background); differs != nil {
			stop()
		}
	}()
	go func() {
		defer done.Done()
		k.streamed.run(background)
	}()
	go func() {
		defer done.Done()
		k.spare.run(background)
	}()
	go func() {
		defer done.Done()
		k.askers.run(background)
	}()
	go func() {
		defer done.Done()
		k.snapshots(background)
	}()
	go func() {
		defer done.Done()
		k.recorder.run(background)
	}()
	go func() {
		defer done.Done()
		k.pasts.run(background)
	}()
	go func() {
		defer done.Done()
		k.follows(background)
	}()
	go func() {
		defer done.Done()
		k.reminds(background)
	}()
	go func() {
		defer done.Done()
		k.provisioning.run(background)
	}()
	go func() {
		defer done.Done()
		k.provisioning.losing.run(background)
	}()
	var damage error
	go func() {
		defer done.Done()
		if damage = k.Folder.CheckOld(background); damage != nil {
			stop()
		}
	}()
	var err error
	for err == nil {
		switch k.serve(ctx, limit, r) {
		case stopped:
			cancel()
			done.Wait()
			if differs != nil {
				r.Discard() // no snapshot is made of that
				k.refuse()
				return differs
			}
			// What is damaged is old: a snapshot of the state may still be what it is rescued by.
			if err := k.finish(limit, r); err != nil || damage == nil {
				return err
			}
			return damage
		case ended:
			r, err = k.again(ctx, r)
		case due:
			r = k.exchange(ctx, r)
		}
	}
	cancel()
	done.Wait()
	if differs != nil {
		return differs
	}
	if damage != nil {
		return damage
	}
	if ctx.Err() != nil {
		return nil
	}
	return err
}

// later is a context that is done a while after another one.
func later(ctx context.Context, while time.Duration) (context.Context, context.CancelFunc) {
	limit, over := context.WithCancel(context.Background())
	go func() {
		select {
		case <-ctx.Done():
		case <-limit.Done():
			return
		}
		timer := time.NewTimer(while)
		defer timer.Stop()
		select {
		case <-timer.C:
			over()
		case <-limit.Done():
		}
	}()
	return limit, over
}

// again brings a new program to the state of the journal after one has ended. It has the marks of the one before, so
// that who listens hears on.
func (k *Keeper) again(ctx context.Context, old *running) (*running, error) {
	why := "the program ended"
	if k.Folder.Broken() != nil || k.Keys.Broken() != nil {
		why = "the journal can't be written"
	} else if old.late.Load() {
		why = "a line took too long"
	}
	old.Discard()
	k.Meter.Restarted(why)
	k.Log.Error("the program is started anew", "why", why, "ended", old.Ended(), "process", old.ID())
	k.shifted = 0
	k.Campaigns.Cut(k.Folder.Last())
	if err := k.cutScim(); err != nil {
		return nil, err
	}
	if err := k.streamed.rests(ctx); err != nil {
		return nil, err
	}
	for pause := firstPause; ; pause = longer(pause) {
		r, err := k.build(ctx, k.ladder.Marks(k.need()))
		if err == nil {
			k.ladder.Anew(r.marks)
			k.stands(r)
			k.changed()
			return r, nil
		}
		var damage *frame.Damage
		if ctx.Err() != nil || errors.Is(err, errDamage) || errors.As(err, &damage) {
			return nil, err
		}
		k.streamed.leaveAll()
		k.Log.Error("the program couldn't be brought to its state, and is started again", "error", err, "after", pause)
		select {
		case <-time.After(pause):
		case <-ctx.Done():
			return nil, ctx.Err()
		}
	}
}

// longer is the pause behind a pause.
func longer(pause time.Duration) time.Duration {
	if pause *= 2; pause > lastPause {
		return lastPause
	}
	return pause
}

// exchange puts a new program in the place of one that has looked at its input nearly as often as it may. Marks
// stay, and the count of evaluations goes on, so that no client sees it. Where that can't be done the old one
// serves on, for as many looks again.
func (k *Keeper) exchange(ctx context.Context, old *running) *running {
	r, err := k.build(ctx, k.ladder.Marks(k.need()))
	if err == nil && r.Looks() >= k.Reads {
		r.Discard()
		err = errors.New("the journal alone takes as many looks")
	}
	if err != nil {
		k.Log.Error("the program couldn't be exchanged, and serves on", "error", err)
		old.Rest()
		return old
	}
	k.ladder.Anew(r.marks)
	before, ok1 := evaluations(ctx, old)
	now, ok2 := evaluations(ctx, r)
	if ok1 && ok2 {
		k.shifted += before - now
	}
	k.Meter.Restarted("planned")
	k.Log.Info("the program was exchanged", "before", old.ID(), "now", r.ID())
	old.Close()
	return r
}

// evaluations asks a program of which no reply is due.
func evaluations(ctx context.Context, r *running) (uint64, bool) {
	stop := killWith(ctx, r.watched)
	defer stop()
	reply, err := exchange(r.watched, working)
	if err != nil {
		return 0, false
	}
	return line.ReadEvaluations(reply)
}

// finish leaves a snapshot, if there were edits since the last, and ends the program, both before a context is done.
func (k *Keeper) finish(limit context.Context, r *running) error {
	stop := killWith(limit, r.watched)
	defer stop()
	defer r.Close()
	k.Notices.Close()
	if err := k.Marks.Listens(k.Notices.Missed(r.serial)); err != nil {
		k.Log.Error("whether somebody missed something can't be written", "error", err)
	}
	k.refuse()
	if r.serial == k.snapshot.Load() {
		return nil
	}
	reply, err := exchange(r.watched, dumping)
	if err == nil {
		// What else goes wrong is told, and nothing is lost by it.
		_ = k.keep(limit, Reply{Body: reply, Serial: r.serial})
		err = limit.Err()
	}
	if err != nil {
		k.Log.Error("no snapshot was made; the journal and the old one stay", "serial", r.serial, "error", err)
	}
	return nil
}

// refuse tells all lines that wait that the front is stopping.
func (k *Keeper) refuse() {
	for _, call := range append(k.streamed.takeAgain(), k.held...) {
		call.end(ErrStopping)
	}
	k.held = nil
	for {
		select {
		case call := <-k.queue:
			call.end(ErrStopping)
		default:
			return
		}
	}
}
