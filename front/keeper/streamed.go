package keeper

import (
	"bytes"
	"context"
	"errors"
	"fmt"
	"sync"
	"sync/atomic"
	"time"

	"review-front/campaigns"
	"review-front/line"
	"review-front/replicated"
	"review-front/scim"
)

const (
	// mostEnds is how many programs may end over one edit of a stream.
	mostEnds = 5
	// mostShort is how often a stream may say that it ends before the last edit on disk.
	mostShort = 10
)

var (
	// ErrRefused says that an edit which is sent again was refused before.
	ErrRefused = errors.New("the edit was appended before, and refused")
	// ErrForgotten says that nobody remembers what one was answered.
	ErrForgotten = errors.New("the edit was appended before, and what it was answered isn't known here")
)

// newline stands between edits of a stream that are made all together.
var newline = []byte("\n")

// ErrAppended says that an edit has no reply, and that this isn't to say that it has no effect.
var ErrAppended = errors.New("the edit is appended, or may be, and may be applied")

// streamed has the edits that go through a stream: each is appended to it, and every front applies what it brings.
type streamed struct {
	keeper  *Keeper
	stream  replicated.Log
	sums    *sums
	mutex   sync.Mutex
	due     map[string]*Call // edits of clients that the stream is to bring, by their ids
	brought map[*Call]bool   // edits of clients that it brought and that have no reply
	flying  int              // how many edits are on their way to it
	tail    uint64           // the sequence behind which the next one is to stand
	foreign uint64           // that up to which there may be edits of other fronts
	closed  bool             // whether those on their way are waited for
	failed  bool             // whether one of them had no place there
	began   time.Time        // when the first of them was sent
	crossed time.Time        // when one had no place last
	resumes time.Time        // from when on more are sent
	read    uint64           // the sequence of the last edit that it brought; for the goroutine that reads
	taken   uint64           // that of the last one which was looked for among those that are due
	last    atomic.Uint64    // that of the last one which is known of
	applied atomic.Uint64    // that of the last one which the program has answered, and what it accepted is on disk
	target  uint64           // that of the last one when the front began
	caught  atomic.Bool      // whether that is applied
	again   []*Call          // edits that a program took and didn't answer; the next has them first
	stuck   uint64           // the sequence of that over which a program ended
	ends    int              // how many ended over it
	short   bool             // whether the last of these had no memory
	beside  *running         // a program that has the state of edits which were tried; for the goroutine that reads
	// landings says that one of those on their way has its place, or has none.
	landings *progress
	told     time.Time // when it was logged last that an edit can't be appended
}

func newStreamed(k *Keeper, from replicated.Log) *streamed {
	if from == nil {
		return nil
	}
	return &streamed{
		keeper: k, stream: from, sums: newSums(k), due: map[string]*Call{}, brought: map[*Call]bool{},
		landings: &progress{},
	}
}

// begin sees that the stream goes on behind the last edit on disk, and gives its name. It waits until it is reached.
// Where the folder is new, or the stream has no more what is behind it, the snapshot of another front takes its
// place.
func (l *streamed) begin(ctx context.Context) (string, error) {
	k := l.keeper
	extent, err := l.extent(ctx, k.Folder.Last())
	if err != nil {
		return "", err
	}
	if last := k.Folder.Last(); last > 0 && k.Folder.Stream() != extent.Name {
		return "", fmt.Errorf("the folder has edits of another stream: %q, and this is %q", k.Folder.Stream(), extent.Name)
	} else if extent.Last < last {
		return "", fmt.Errorf("the stream ends at sequence %d, and was at %d: it has lost edits", extent.Last, last)
	} else if last == 0 || extent.First > last+1 {
		if err := l.adopt(ctx, extent); err != nil {
			return "", err
		}
	}
	last := k.Folder.Last()
	if extent.First > last+1 {
		return "", fmt.Errorf("the stream begins at sequence %d, and the folder ends at %d: "+
			"--snapshot-from a front that has more", extent.First, last)
	}
	l.read, l.taken, l.target, l.foreign = last, last, extent.Last, extent.Last
	l.last.Store(extent.Last)
	l.applied.Store(last)
	l.caught.Store(last >= l.target)
	return extent.Name, nil
}

// adopt begins the folder by the newest snapshot that another front has, if one has any.
func (l *streamed) adopt(ctx context.Context, extent replicated.Extent) error {
	k := l.keeper
	for _, from := range k.Others {
		snapshot, err := from.Snapshot(ctx)
		if err != nil {
			k.Log.Error("another front gives no snapshot", "error", err)
			continue
		}
		err = k.Folder.SetAside()
		var serial uint64
		if err == nil {
			serial, err = k.Folder.Adopt(snapshot, extent.Name)
		}
		snapshot.Close()
		if err != nil {
			return err
		}
		k.Log.Info("the folder begins with the snapshot of another front", "serial", serial)
		if err := l.adoptKeys(ctx, from); err != nil {
			k.Log.Error("another front doesn't give what it remembers of bodies with keys", "error", err)
		}
		if err := l.adoptCampaigns(ctx, from); err != nil {
			k.Log.Error("another front doesn't give what it knows of campaigns, of which none of before is known", "error", err)
		}
		return k.recover()
	}
	return nil
}

// extent is what the stream has, once it is reached. A new leader of its servers may say for a while that it ends before
// what it had: that is asked again, too.
func (l *streamed) extent(ctx context.Context, last uint64) (replicated.Extent, error) {
	short := 0
	for pause := firstPause; ; pause = longer(pause) {
		extent, err := l.stream.Extent(ctx)
		if err == nil && extent.Last < last {
			short++
		}
		if err == nil && (extent.Last >= last || short == mostShort) || ctx.Err() != nil {
			return extent, err
		}
		l.keeper.Log.Error("the stream can't be had, and is asked again", "error", err, "ends", extent.Last, "after", pause)
		select {
		case <-time.After(pause):
		case <-ctx.Done():
		}
	}
}

// compares compares this front's state with that of others, until the context is done or this front's is wrong.
func (l *streamed) compares(ctx context.Context) error {
	if l == nil {
		return nil
	}
	return l.sums.run(ctx)
}

// run reads the stream until the context is done.
func (l *streamed) run(ctx context.Context) {
	if l == nil {
		return
	}
	defer l.discard()
	for pause := firstPause; ctx.Err() == nil; pause = longer(pause) {
		err := l.stream.Read(ctx, l.read, func(edit replicated.Edit) error {
			pause = firstPause
			return l.feed(ctx, edit)
		})
		if ctx.Err() != nil {
			return
		}
		l.keeper.Log.Error("the stream is read anew", "error", err, "behind", l.read, "after", pause)
		select {
		case <-time.After(pause):
		case <-ctx.Done():
		}
	}
}

// feed puts an edit that the stream brought among the lines for the program.
func (l *streamed) feed(ctx context.Context, edit replicated.Edit) error {
	call := l.take(edit)
	fed := call.fed
	if call.group != nil && fed != nil {
		close(fed) // nothing of their client comes behind them, and to try them may take a while
		fed = nil
	}
	if err := l.put(ctx, call); err != nil {
		call.leaveAppended() // it isn't lost: it is read anew
		return err
	}
	l.read = edit.Sequence
	l.sees(edit.Sequence)
	if fed != nil {
		close(fed)
	}
	return nil
}

// put puts it there, and before that sees whether edits that are made all together are made.
func (l *streamed) put(ctx context.Context, call *Call) error {
	if call.group != nil {
		if err := l.settleWhole(ctx, call); err != nil {
			return err
		}
	} else if l.caught.Load() {
		l.discard()
	}
	if err := l.awaitJournal(ctx, call); err != nil {
		return err
	}
	select {
	case l.keeper.queue <- call:
		return nil
	case <-ctx.Done():
		return ctx.Err()
	}
}

// awaitJournal reads no further while edits can't be kept. The client of one that was read waits no more.
func (l *streamed) awaitJournal(ctx context.Context, call *Call) error {
	for l.keeper.Folder.Broken() != nil || l.keeper.Keys.Broken() != nil {
		call.leaveAppended()
		select {
		case <-time.After(firstPause):
		case <-ctx.Done():
			return ctx.Err()
		}
	}
	return nil
}

// take is the client's edit that the stream brought, or that of another front.
func (l *streamed) take(edit replicated.Edit) *Call {
	l.mutex.Lock()
	defer l.mutex.Unlock()
	l.taken = edit.Sequence
	call := l.due[edit.ID]
	delete(l.due, edit.ID)
	if call == nil {
		call = callOf(edit)
		call.isOf(edit.Key)
	} else {
		l.brought[call] = true
		call.settle = func(reply *Reply) { l.finished(call, *reply) }
	}
	l.settleDoubts(edit.Sequence)
	if call.Remember != nil {
		l.keeper.Keys.Find(*call.Remember, edit.Time)
	}
	for _, one := range call.all() {
		one.sequence, one.at, one.By = edit.Sequence, edit.Time, edit.By
	}
	l.keeper.spare.had(call)
	l.landings.moved()
	return call
}

// callOf is the edit of another front. What isn't one, or several that are made all together, each replica refuses.
func callOf(edit replicated.Edit) *Call {
	if campaigns.IsRecord(edit.Line) {
		return &Call{Line: edit.Line, By: edit.By, kind: line.Edit, act: actOf(edit.Line), reply: make(chan Reply, 1)}
	}
	if scim.IsRecord(edit.Line) {
		return &Call{Line: edit.Line, By: edit.By, kind: line.Edit, act: provisionOf(edit.Line), reply: make(chan Reply, 1)}
	}
	lines := [][]byte{edit.Line}
	if edit.Whole {
		lines = bytes.Split(edit.Line, newline)
	}
	var calls []*Call
	for _, l := range lines {
		if !isEditLine(l) {
			return &Call{By: edit.By, kind: line.Edit, reply: make(chan Reply, 1)}
		}
		calls = append(calls, &Call{Line: l, By: edit.By, kind: line.Edit, reply: make(chan Reply, 1)})
	}
	if edit.Whole {
		return grouped(calls)
	}
	return calls[0]
}

// all is a call and those that are sent behind it.
func (c *Call) all() []*Call { return append([]*Call{c}, c.behind...) }

// isEditLine says whether something is one line, and an edit.
func isEditLine(l []byte) bool {
	if len(l) > line.Limit {
		return false
	}
	for _, b := range l {
		if b == '\n' {
			return false
		}
	}
	kind, _ := line.Read(l)
	return kind == line.Edit
}

// reached says that edits up to a sequence are applied.
func (l *streamed) reached(sequence uint64) {
	l.applied.Store(sequence)
	l.keeper.reached.moved()
	if !l.caught.Load() && sequence >= l.target {
		l.caught.Store(true)
		l.keeper.ready.set(true)
	}
}

// applies says that the edits of a batch are applied.
func (l *streamed) applies(batch []settled) {
	if l == nil {
		return
	}
	for i := len(batch) - 1; i >= 0; i-- {
		if sequence := batch[i].call.sequence; sequence != 0 {
			l.reached(sequence)
			return
		}
	}
}

// ended says over which edit a program ended, and whether that was for want of memory.
func (l *streamed) ended(sequence uint64, short bool) {
	if sequence != l.stuck {
		l.stuck, l.ends = sequence, 0
	}
	l.short = short
	l.ends++
	if short {
		l.leaveAll()
	}
}

// takeAgain are the edits that the next program has first.
func (l *streamed) takeAgain() []*Call {
	if l == nil {
		return nil
	}
	again := l.again
	l.again = nil
	return again
}

// rests waits before another program is told the edit over which the last one ended. It is an error where too many
// did.
func (l *streamed) rests(ctx context.Context) error {
	if l == nil || l.ends == 0 || l.applied.Load() >= l.stuck {
		return nil
	}
	if l.ends >= mostEnds && !l.short {
		return fmt.Errorf("%w: %d programs ended over the edit of sequence %d", errDamage, l.ends, l.stuck)
	}
	pause := firstPause
	for i := 1; i < l.ends; i++ {
		pause = longer(pause)
	}
	select {
	case <-time.After(pause):
		return nil
	case <-ctx.Done():
		return ctx.Err()
	}
}
