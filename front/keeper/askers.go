package keeper

import (
	"context"
	"sort"
	"sync"
	"sync/atomic"
	"time"

	"review-front/folder"
)

// waitingAsks is how many requests wait for an asker at most.
const waitingAsks = 4096

// askers are programs that answer requests beside the table's. They are told the same edits once these are on disk,
// but no names: none of them has a cell, so that an edit which changes the whole table takes them no time.
type askers struct {
	keeper *Keeper
	count  int
	asks   chan *Call
	up     atomic.Int64  // how many answer
	moved  chan struct{} // says that the first one answers, or the last one doesn't any more
	mutex  sync.Mutex
	all    map[*asker]bool
	edits  []folder.Entry // those that one of them wasn't told yet
	before uint64         // the serial before the first of these
}

func newAskers(k *Keeper, count int) *askers {
	return &askers{
		keeper: k, count: count, asks: make(chan *Call, waitingAsks), moved: make(chan struct{}, 1), all: map[*asker]bool{},
	}
}

// Askers is how many programs beside the table's answer requests.
func (k *Keeper) Askers() int { return int(k.askers.up.Load()) }

// Decide asks a request of the program that can answer it soonest.
func (k *Keeper) Decide(ctx context.Context, l []byte) Reply {
	return k.decide(ctx, &Call{Line: l})
}

// decide asks one request, or a run of them.
func (k *Keeper) decide(ctx context.Context, call *Call) Reply {
	if k.askers.up.Load() == 0 {
		if err := k.Await(ctx); err != nil {
			return Reply{Err: err}
		}
	}
	if k.askers.count == 0 {
		return k.Send(ctx, call)
	}
	_, err := k.submit(ctx, k.askers.asks, call)
	return call.wait(ctx, err)
}

// DecideAll asks requests that are answered at one serial.
func (k *Keeper) DecideAll(ctx context.Context, lines [][]byte) []Reply {
	for again := true; ; again = false {
		replies := k.decideRun(ctx, lines)
		if ctx.Err() != nil || !again || isWhole(replies) {
			return replies
		}
	}
}

// decideRun asks requests with nothing between them.
func (k *Keeper) decideRun(ctx context.Context, lines [][]byte) []Reply {
	calls := make([]*Call, len(lines))
	for i, l := range lines {
		calls[i] = &Call{Line: l, run: len(lines) > 1, context: ctx, reply: make(chan Reply, 1)}
	}
	replies := make([]Reply, len(lines))
	if len(lines) == 0 {
		return replies
	}
	calls[0].behind = calls[1:]
	replies[0] = k.decide(ctx, calls[0])
	for i, call := range calls[1:] {
		if replies[0].Err != nil {
			replies[i+1] = Reply{Err: replies[0].Err}
			continue
		}
		replies[i+1] = call.wait(ctx, nil)
	}
	return replies
}

// isWhole says whether all lines of a run have a reply, at one serial.
func isWhole(replies []Reply) bool {
	for _, reply := range replies {
		if reply.Err != nil || reply.Serial != replies[0].Serial {
			return false
		}
	}
	return true
}

// run keeps the askers until the context is done.
func (s *askers) run(ctx context.Context) {
	if s.count == 0 {
		return
	}
	var all sync.WaitGroup
	for i := 0; i < s.count; i++ {
		all.Add(1)
		go func() {
			defer all.Done()
			s.keep(ctx)
		}()
	}
	s.relay(ctx)
	all.Wait()
	for {
		select {
		case call := <-s.asks:
			call.end(ErrStopping)
		default:
			return
		}
	}
}

// relay has the table's program answer while no asker does.
func (s *askers) relay(ctx context.Context) {
	for {
		var asks chan *Call
		if s.up.Load() == 0 {
			asks = s.asks
		}
		select {
		case call := <-asks:
			select {
			case s.keeper.queue <- call:
			case <-ctx.Done():
				call.end(ErrStopping)
				return
			}
		case <-s.moved:
		case <-ctx.Done():
			return
		}
	}
}

// keep has one asker answer, and another one in its place when it ends.
func (s *askers) keep(ctx context.Context) {
	k := s.keeper
	for pause := firstPause; ctx.Err() == nil; pause = longer(pause) {
		a, err := s.start(ctx)
		if err == nil {
			pause = firstPause
			s.arrived(1)
			a.serve(ctx)
			s.arrived(-1)
			s.leave(a)
		}
		if ctx.Err() != nil {
			return
		}
		if err != nil {
			k.Log.Error("an asker couldn't be brought to its state, and is started again", "error", err, "after", pause)
		} else {
			k.Meter.Restarted("an asker ended")
			k.Log.Error("an asker is started anew", "ended", a.Ended(), "process", a.ID())
		}
		select {
		case <-time.After(pause):
		case <-ctx.Done():
		}
	}
}

// arrived counts one more that answers, or one less.
func (s *askers) arrived(more int64) {
	if up := s.up.Add(more); up == 0 || up == more {
		select {
		case s.moved <- struct{}{}:
		default:
		}
	}
}

// enter counts an asker among those that are told edits, from the last one on disk on, and says which that is.
func (s *askers) enter(a *asker) {
	s.mutex.Lock()
	defer s.mutex.Unlock()
	if len(s.all) == 0 {
		s.before, s.edits = s.keeper.Folder.Last(), nil
	}
	s.all[a] = true
	a.told = s.last()
	a.latest.Store(a.told)
}

// leave counts it there no more.
func (s *askers) leave(a *asker) {
	s.mutex.Lock()
	defer s.mutex.Unlock()
	delete(s.all, a)
	s.trim()
}

// tell has each asker be told edits that are on disk.
func (s *askers) tell(edits []folder.Entry) {
	s.mutex.Lock()
	defer s.mutex.Unlock()
	if len(s.all) == 0 {
		return
	}
	for len(edits) > 0 && edits[0].Serial <= s.last() {
		edits = edits[1:] // an asker that began just now has it from the disk
	}
	if len(edits) == 0 {
		return
	}
	s.edits = append(s.edits, edits...)
	for a := range s.all {
		a.latest.Store(edits[len(edits)-1].Serial)
		select {
		case a.moved <- struct{}{}:
		default:
		}
	}
}

// news are the edits that an asker wasn't told yet, which it is told now.
func (s *askers) news(a *asker) []folder.Entry {
	s.mutex.Lock()
	defer s.mutex.Unlock()
	edits := s.edits[s.behind(a.told):]
	a.told = s.last()
	s.trim()
	return edits
}

// last is the serial of the last edit that they are told.
func (s *askers) last() uint64 {
	if len(s.edits) == 0 {
		return s.before
	}
	return s.edits[len(s.edits)-1].Serial
}

// behind is where the edits behind a serial begin.
func (s *askers) behind(serial uint64) int {
	return sort.Search(len(s.edits), func(i int) bool { return s.edits[i].Serial > serial })
}

// trim forgets the edits that all were told.
func (s *askers) trim() {
	least := s.last()
	for a := range s.all {
		if a.told < least {
			least = a.told
		}
	}
	if told := s.behind(least); told == len(s.edits) {
		s.edits, s.before = nil, least
	} else if told > len(s.edits)/2 {
		s.edits, s.before = append([]folder.Entry(nil), s.edits[told:]...), least
	}
}
