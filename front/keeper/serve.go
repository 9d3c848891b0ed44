package keeper

import (
	"context"
	"sync"
	"sync/atomic"
	"time"

	"review-front/folder"
	"review-front/line"
)

const (
	inFlight    = 1024 // how many lines the program has at most
	together    = 1024 // how many replies are settled, and lines are sent, at once
	repairPause = time.Second
	tellPause   = time.Second // after listeners couldn't be told
)

// reason is why a program isn't served any more.
type reason int

const (
	stopped reason = iota // the front ends
	ended                 // the program ended, or was killed since the journal can't be written
	due                   // the program has looked at its input nearly as often as it may
)

// serving is one program while lines are sent to it. One goroutine sends, one reads replies, and one sees that
// edits are on disk and hands replies out.
type serving struct {
	keeper  *Keeper
	program *running
	flight  chan *Call
	replies chan settled
	// unsettled counts what is in `replies` or not handed out yet.
	unsettled atomic.Int64
	over      atomic.Bool   // no line is sent any more: the program ended or is being killed
	telling   atomic.Bool   // notices are on their way
	sent      bool          // a line was sent since it was looked
	answered  chan struct{} // says that all lines of a kind have their replies
	// unkept and unanswered are edits of a stream whose replies couldn't be kept, and that have none.
	unkept, unanswered []*Call
	parked             []*Call // edits of a stream that wait until they can be kept; for who sends lines
}

// settled is a reply that was read.
type settled struct {
	call  *Call
	reply Reply
	entry *folder.Entry // of an edit that was accepted
	parts []settled     // those of edits that are made all together, of which it is the first
}

// serve serves lines by a program until there is a reason not to. Then none of its lines is without a reply. Where
// the program doesn't answer it is killed once `limit` is done.
func (k *Keeper) serve(ctx, limit context.Context, r *running) reason {
	stop := killWith(limit, r.watched)
	defer stop()
	s := &serving{
		keeper: k, program: r, flight: make(chan *Call, inFlight), replies: make(chan settled, inFlight),
		answered: make(chan struct{}, 1),
	}
	var both sync.WaitGroup
	both.Add(2)
	go func() {
		defer both.Done()
		s.receive()
	}()
	go func() {
		defer both.Done()
		s.commit()
	}()
	k.serving.Store(r.watched)
	k.ready.set(k.streamed == nil || k.streamed.caught.Load())
	why := s.feed(ctx)
	close(s.flight)
	both.Wait()
	k.ready.set(false)
	k.serving.Store(nil)
	if k.streamed != nil {
		k.streamed.again = append(append(s.unkept, s.unanswered...), s.parked...)
	}
	return why
}

// idle comes from time to time, if it is to be seen that the program moves also where nobody asks.
func (s *serving) idle() (<-chan time.Time, func()) {
	if s.program.time == 0 {
		return nil, func() {}
	}
	tick := time.NewTicker(s.program.pause())
	return tick.C, tick.Stop
}

// feed sends lines until there is a reason not to.
func (s *serving) feed(ctx context.Context) reason {
	k := s.keeper
	held := append(k.streamed.takeAgain(), k.held...)
	k.held = nil
	for _, call := range held {
		s.take(call)
	}
	_ = s.program.Flush()
	idle, end := s.idle()
	defer end()
	mending, rest := s.mending()
	defer rest()
	for {
		select {
		case call := <-k.queue:
			s.take(call)
		case <-k.edited:
			s.tell()
		case <-idle:
			if !s.sent && !s.program.due.Load() {
				s.own(working, nil)
			}
			s.sent = false
		case <-mending:
			s.unpark()
		case <-s.program.Done():
			return ended
		case <-ctx.Done():
			return stopped
		}
		for taken := 0; taken < together && s.more(); taken++ {
		}
		// A pipe that is closed is seen by the program's end.
		_ = s.program.Flush()
		if s.over.Load() {
			return ended
		}
		if k.Reads != 0 && s.program.Looks() >= k.Reads {
			return due
		}
	}
}

// more takes a line that waits, if one does.
func (s *serving) more() bool {
	if s.over.Load() {
		return false
	}
	select {
	case call := <-s.keeper.queue:
		s.take(call)
		return true
	default:
		return false
	}
}

// take sends a line of a client, unless he has gone or it is an edit that couldn't be kept.
func (s *serving) take(call *Call) {
	if s.over.Load() {
		s.keeper.held = append(s.keeper.held, call)
		return
	}
	if call.context != nil && call.context.Err() != nil {
		call.end(call.context.Err())
		return
	}
	if call.sequence != 0 && (len(s.parked) > 0 || !s.keeper.mayEdit()) {
		s.park(call)
		return
	}
	if call.sequence == 0 && call.kind == line.Edit && !s.keeper.mayEdit() {
		call.end(ErrJournal)
		return
	}
	if !s.apart(call) {
		s.keeper.held = append(s.keeper.held, call)
		return
	}
	if call.act != nil {
		s.judge(call)
	}
	s.send(call)
	for _, next := range call.behind {
		s.send(next)
	}
	if call.sequence != 0 && s.keeper.streamed.sums.isDue(call.sequence) {
		s.own(dumping, func(reply *Reply) { s.keeper.streamed.sums.add(call.sequence, reply.Body) })
	}
}

// counter is where lines on their way are counted that are like one, and `other` where those are that aren't sent with it.
func (s *serving) counter(call *Call) (own, other *atomic.Int64) {
	switch call.pace() {
	case lasting:
		return &s.program.lasting, &s.program.timed
	case timed:
		return &s.program.timed, &s.program.lasting
	}
	return nil, nil
}

// apart waits until lines that may take long, and those whose replies have their time, aren't on their way together: the
// program holds a reply back while there are lines behind, and it couldn't be told which of them takes long. It is false
// where the program ended.
func (s *serving) apart(call *Call) bool {
	for _, other := s.counter(call); other != nil && other.Load() > 0; {
		_ = s.program.Flush()
		<-s.answered
	}
	return !s.over.Load()
}

// gone says that a line isn't on its way any more.
func (s *serving) gone(call *Call) {
	if own, _ := s.counter(call); own != nil && own.Add(-1) == 0 {
		select {
		case s.answered <- struct{}{}:
		default:
		}
	}
}

// park has an edit of a stream wait until it can be kept. Questions are answered meanwhile, as of what is kept.
func (s *serving) park(call *Call) {
	s.parked = append(s.parked, call)
	s.keeper.streamed.leaveAll()
}

// unpark sends edits of a stream that waited, once they can be kept.
func (s *serving) unpark() {
	k := s.keeper
	if k.Folder.Broken() == nil && k.Keys.Broken() == nil && len(s.parked) == 0 || s.over.Load() || !k.mayEdit() {
		return
	}
	parked := s.parked
	s.parked = nil
	for _, call := range parked {
		s.take(call)
	}
}

// mending comes from time to time where edits of a stream may wait.
func (s *serving) mending() (<-chan time.Time, func()) {
	if s.keeper.streamed == nil {
		return nil, func() {}
	}
	tick := time.NewTicker(repairPause)
	return tick.C, tick.Stop
}

// mayEdit says whether the journal and the keys can be written. Where they couldn't, that is tried again from time to
// time.
func (k *Keeper) mayEdit() bool {
	if k.Folder.Broken() == nil && k.Keys.Broken() == nil {
		return true
	}
	now := time.Now().UnixNano()
	if now-k.repaired.Load() < int64(repairPause) {
		return false
	}
	k.repaired.Store(now)
	err := k.Folder.Repair()
	if err == nil {
		err = k.Keys.Repair()
	}
	if err != nil {
		k.Log.Error("edits are refused", "error", err)
		return false
	}
	k.unkeeps(nil)
	k.Log.Info("the journal can be written again")
	return true
}

// send puts a call among those that wait for replies, and its line into the pipe.
func (s *serving) send(call *Call) {
	s.address(call)
	s.apart(call)
	if own, _ := s.counter(call); own != nil {
		own.Add(1)
	}
	select {
	case s.flight <- call:
	default:
		_ = s.program.Flush()
		s.flight <- call
	}
	s.sent = true
	// If the pipe is closed the reader finds no reply, and says so.
	if l := call.Line; call.act == nil {
		_ = s.program.Send(l)
	} else {
		_ = s.program.Send(working)
	}
}

// own sends a line of the front itself.
func (s *serving) own(l []byte, settle func(*Reply)) {
	kind, _ := line.Read(l)
	if kind == line.Mark {
		kind = line.Light // it is no client's
	}
	s.send(&Call{Line: l, kind: kind, own: true, settle: settle, reply: make(chan Reply, 1)})
}

// changed says that there is something to tell.
func (k *Keeper) changed() {
	select {
	case k.edited <- struct{}{}:
	default:
	}
}
