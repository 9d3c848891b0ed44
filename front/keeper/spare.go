package keeper

import (
	"context"
	"fmt"
	"sync"
	"sync/atomic"
	"time"

	"review-front/folder"
	"review-front/line"
)

// Tried says that an edit took too long in a spare program, or ended two, and wasn't sent to the table's.
type Tried struct {
	Took  time.Duration
	Ended bool // it ended before its time was over
}

func (t *Tried) Error() string {
	if t.Ended {
		return fmt.Sprintf("a spare program that was told it ended after %v", t.Took.Round(time.Millisecond))
	}
	return fmt.Sprintf("it took a spare program more than %v", t.Took.Round(time.Millisecond))
}

// spare has a program of the same state as the table's, which is told each edit first. What takes too long there never
// reaches the table. It is for who has the turn, but for what says otherwise.
type spare struct {
	keeper *Keeper
	now    *running
	broken *atomic.Bool  // whether `now` has ended, or another state than the table's program; for everybody
	ready  *readiness    // whether there is one; for everybody
	wanted chan struct{} // another one is wanted
	// Of a stream: what came to the disk and `now` wasn't told, says that there is some of that, and which edits of it
	// a spare program had.
	mutex sync.Mutex
	news  []folder.Entry
	moved chan struct{}
	own   map[uint64]*atomic.Bool
}

func newSpare(k *Keeper) *spare {
	return &spare{
		keeper: k, broken: &atomic.Bool{}, ready: newReadiness(), wanted: make(chan struct{}, 1),
		moved: make(chan struct{}, 1), own: map[uint64]*atomic.Bool{},
	}
}

// stands says whether there is one that edits can be tried on.
func (s *spare) stands() bool {
	return s.now != nil && !s.broken.Load() && (s.keeper.Reads == 0 || s.now.Looks() < s.keeper.Reads)
}

// lack has another one made. It is for everybody.
func (s *spare) lack() {
	s.ready.set(false)
	select {
	case s.wanted <- struct{}{}:
	default:
	}
}

// differs says that a spare program has another state than the table's. It is for everybody.
func (s *spare) differs(broken *atomic.Bool) {
	broken.Store(true)
	s.lack()
}

// run makes a spare program whenever one is wanted, until the context is done.
func (s *spare) run(ctx context.Context) {
	if s.keeper.TryTime == 0 {
		return
	}
	defer s.end()
	for pause := firstPause; ctx.Err() == nil; pause = longer(pause) {
		err := s.make(ctx)
		if err == nil {
			s.stay(ctx)
			pause = firstPause / 2
			continue
		}
		if ctx.Err() == nil {
			s.keeper.Log.Error("there is no spare program, and edits wait", "error", err, "after", pause)
		}
		select {
		case <-time.After(pause):
		case <-ctx.Done():
		}
	}
}

// end ends the spare program once nobody tries an edit.
func (s *spare) end() {
	s.keeper.edits.turn <- struct{}{}
	defer s.keeper.edits.give()
	if s.now != nil {
		s.now.Discard()
	}
}

// make makes one while no edit is on its way.
func (s *spare) make(ctx context.Context) error {
	k := s.keeper
	if err := k.edits.take(ctx); err != nil {
		return err
	}
	defer k.edits.give()
	if s.stands() {
		s.ready.set(true)
		return nil
	}
	if s.now != nil {
		s.now.Discard()
		s.now = nil
		k.Meter.Restarted("a spare program")
	}
	if err := k.edits.idle(ctx); err != nil {
		return err
	}
	r, err := k.another(ctx, k.start)
	if err != nil {
		return err
	}
	if k.Reads != 0 && r.Looks() >= k.Reads {
		r.Rest() // the journal alone takes as many
	}
	broken := &atomic.Bool{}
	s.now, s.broken = r, broken
	go func() {
		select {
		case <-r.Done():
		case <-ctx.Done():
			r.Kill()
		}
		s.differs(broken)
	}()
	s.ready.set(true)
	k.Log.Info("a spare program has the state", "serial", r.serial, "process", r.ID())
	return nil
}

// another brings a program beside the table's to the state of the last edit on disk.
func (k *Keeper) another(ctx context.Context, start func() (*watched, error)) (*running, error) {
	snapshot, _, err := k.Folder.Base(k.Folder.Last())
	if err != nil {
		return nil, err
	}
	w, err := start()
	if err != nil {
		return nil, err
	}
	stop := killWith(ctx, w)
	defer stop()
	r := &running{watched: w, serial: snapshot.Serial}
	if _, err := k.replay(begin(ctx, w, false), r, snapshot, nil); err != nil {
		w.Discard()
		return nil, err
	}
	return r, nil
}

// follow tells such a program the edits that came to the disk since.
func (k *Keeper) follow(ctx context.Context, r *running) error {
	replay := begin(ctx, r.watched, false)
	err := k.Folder.Each(r.serial, func(entry folder.Entry, place folder.Place) error {
		return r.tell(replay, entry, place)
	})
	return replay.end(err)
}

// try tells the spare program an edit.
func (s *spare) try(call *Call) error {
	call.differs = s.broken
	_, err := s.now.try(call, s.keeper.TryTime)
	if err != nil {
		s.differs(s.broken)
	}
	return err
}

// try tells a program an edit which may take so long, and says whether it was accepted. What it answers is what the
// table's program is to answer.
func (r *running) try(call *Call, limit time.Duration) (bool, error) {
	began := time.Now()
	var late atomic.Bool
	if limit > 0 {
		timer := time.AfterFunc(limit, func() {
			late.Store(true)
			r.Kill()
		})
		defer timer.Stop()
	}
	body, err := exchange(r.watched, call.Line)
	if err != nil {
		r.keeper.Log.Error("an edit isn't sent to the table's program", "took", time.Since(began), "process", r.ID(),
			"line", string(beginning(call.Line)))
		return false, &Tried{Took: time.Since(began), Ended: !late.Load()}
	}
	_, ok := line.ReadAccepted(body)
	if ok {
		r.serial++
		r.numbers.add(r.serial)
	}
	call.tried = r.numbered(body)
	return ok, nil
}
