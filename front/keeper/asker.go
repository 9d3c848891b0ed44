package keeper

import (
	"context"
	"errors"
	"fmt"
	"sync"
	"sync/atomic"
	"time"

	"review-front/folder"
	"review-front/line"
)

const (
	// askerFlight is how many requests an asker has at most: one that takes long holds up no more of them.
	askerFlight = 2
	// slowTime is how long a request may take until no other one comes behind it.
	slowTime = 10 * time.Millisecond
)

// mostEnded is how many askers may end over a request before it gets no reply.
const mostEnded = 2

// asker is one program beside the table's. One goroutine sends it lines, one reads replies.
type asker struct {
	*watched
	askers *askers
	told   uint64        // the serial of the last edit that it was told; for the goroutine that sends
	latest atomic.Uint64 // that of the last one that it is to be told
	made   uint64        // how many edits it accepted; for the goroutine that reads replies
	moved  chan struct{} // says that there are edits to be told
	places chan struct{} // holds something for each request that it has
	flight chan asked
	since  atomic.Int64 // from when on the present reply is due, in nanoseconds; 0: none is
}

// asked is a line whose reply is due: of a client, or an edit.
type asked struct {
	call   *Call  // nil of an edit
	last   bool   // whether the client's line is the last of its run
	serial uint64 // that of the last edit which was told before
}

// start brings an asker to the state of the last edit on disk.
func (s *askers) start(ctx context.Context) (*asker, error) {
	k := s.keeper
	w, err := k.start()
	if err != nil {
		return nil, err
	}
	stop := killWith(ctx, w)
	defer stop()
	a := &asker{
		watched: w, askers: s, moved: make(chan struct{}, 1), places: make(chan struct{}, askerFlight),
		flight: make(chan asked, inFlight),
	}
	s.enter(a)
	if err := a.replay(ctx); err != nil {
		s.leave(a)
		w.Discard()
		return nil, err
	}
	if k.Reads != 0 && w.Looks() >= k.Reads {
		w.Rest() // the journal alone takes as many
	}
	k.Log.Info("an asker has its state", "serial", a.told, "edits", a.made, "process", w.ID())
	return a, nil
}

// errEnough ends a reading of the journal that has what it was for.
var errEnough = errors.New("no more is needed")

// replay tells it a snapshot and the edits behind it, up to those that it is told when they are made.
func (a *asker) replay(ctx context.Context) error {
	folders := a.keeper.Folder
	snapshot, _, err := folders.Base(a.told)
	if err != nil {
		return err
	}
	replay := begin(ctx, a.watched, false)
	a.made, err = replay.snapshotLines(snapshot, line.IsName)
	if err == nil {
		err = folders.Each(snapshot.Serial, func(entry folder.Entry, place folder.Place) error {
			if entry.Serial > a.told {
				return errEnough
			}
			if line.IsName(entry.Line) || entry.IsRecord() {
				return nil
			}
			a.made++
			return replay.send(expected{line: entry.Line, place: place, check: isEdit(a.made)})
		})
	}
	if err == errEnough {
		err = nil
	}
	return replay.end(err)
}

// serve answers requests until the asker ends, or the context is done.
func (a *asker) serve(ctx context.Context) {
	var both sync.WaitGroup
	both.Add(1)
	go func() {
		defer both.Done()
		a.receive()
	}()
	a.feed(ctx)
	close(a.flight)
	if ctx.Err() != nil {
		a.Close()
	}
	both.Wait()
	a.Discard()
}

// feed sends requests, and before each the edits that were made until then.
func (a *asker) feed(ctx context.Context) {
	for {
		if !a.place(ctx) {
			return
		}
		select {
		case call := <-a.askers.asks:
			if a.isSlow() {
				<-a.places
				a.pass(call)
				if !a.alone(ctx) {
					return
				}
				continue
			}
			a.ask(call)
		case <-a.moved:
			<-a.places
			a.follow()
		case <-a.Done():
			return
		case <-ctx.Done():
			return
		}
		for a.more() {
		}
		// A pipe that is closed is seen by the asker's end.
		_ = a.Flush()
		if k := a.keeper; k.Reads != 0 && a.Looks() >= k.Reads {
			return
		}
	}
}

// place waits until the asker may have one request more. Edits are told meanwhile.
func (a *asker) place(ctx context.Context) bool {
	for {
		select {
		case a.places <- struct{}{}:
			return true
		case <-a.moved:
			a.follow()
			_ = a.Flush()
		case <-a.Done():
			return false
		case <-ctx.Done():
			return false
		}
	}
}

// isSlow says whether the present request has taken a while already.
func (a *asker) isSlow() bool {
	since := a.since.Load()
	return since != 0 && time.Now().UnixNano()-since > int64(slowTime)
}

// alone waits until the asker has no request.
func (a *asker) alone(ctx context.Context) bool {
	for held := 0; held < askerFlight; held++ {
		if !a.place(ctx) {
			return false
		}
	}
	for held := 0; held < askerFlight; held++ {
		<-a.places
	}
	return true
}

// more sends a request that waits, if there is one and the asker may have it.
func (a *asker) more() bool {
	select {
	case a.places <- struct{}{}:
	default:
		return false
	}
	select {
	case call := <-a.askers.asks:
		a.ask(call)
		return true
	default:
		<-a.places
		return false
	}
}

// ask sends a request of somebody who is still there, and those that follow it.
func (a *asker) ask(call *Call) {
	if call.context.Err() != nil {
		<-a.places
		call.end(call.context.Err())
		return
	}
	a.follow()
	a.send(call.Line, asked{call: call, last: len(call.behind) == 0, serial: a.told})
	for i, next := range call.behind {
		a.send(next.Line, asked{call: next, last: i+1 == len(call.behind), serial: a.told})
	}
}

// follow tells the asker the edits that were made.
func (a *asker) follow() {
	if a.told == a.latest.Load() {
		return
	}
	for _, entry := range a.askers.news(a) {
		if !line.IsName(entry.Line) && !entry.IsRecord() {
			a.send(entry.Line, asked{})
		}
	}
}

// send puts a line into the pipe.
func (a *asker) send(l []byte, due asked) {
	if due.call != nil {
		a.timed.Add(1)
	}
	select {
	case a.flight <- due:
	default:
		_ = a.Flush()
		a.flight <- due
	}
	// If the pipe is closed the reader finds no reply.
	_ = a.Send(l)
}

// receive reads replies. When the asker ends, or answers an edit otherwise than the table's program did, the requests
// that it had are asked again.
func (a *asker) receive() {
	defer a.call.Store(nil)
	dead := false
	for due := range a.flight {
		if !dead {
			a.call.Store(due.call)
			a.since.Store(time.Now().UnixNano())
			body, err := a.Receive()
			a.since.Store(0)
			if due.call != nil {
				a.timed.Add(-1)
			}
			if err == nil {
				err = a.read(due, body)
			}
			if err == nil {
				continue
			}
			a.keeper.Log.Error("an asker is ended", "error", err, "process", a.ID())
			a.Kill()
			dead = true
			if due.call != nil {
				due.call.ended++
				if a.late.Load() {
					due.call.ended = mostEnded
				}
			}
		}
		a.again(due.call)
	}
}

// read hands a reply on, or sees that an edit was accepted.
func (a *asker) read(due asked, body []byte) error {
	if due.call != nil {
		if due.last {
			<-a.places
		}
		due.call.finish(Reply{Body: body, Serial: due.serial})
		return nil
	}
	a.made++
	if said, ok := line.ReadAccepted(body); !ok || said.Serial != a.made || said.Changes != 0 {
		return fmt.Errorf("an edit that was accepted is answered %.200s, and was to be edit %d", body, a.made)
	}
	return nil
}

// again has another program answer a request, unless it is one of a run, which is asked as a whole, or seems to be what
// ends askers.
func (a *asker) again(call *Call) {
	switch {
	case call == nil:
		return
	case call.run || call.ended >= mostEnded:
		call.finish(Reply{Err: ErrAsked})
		return
	}
	a.pass(call)
}

// pass has another program answer a request, with those that follow it.
func (a *asker) pass(call *Call) {
	go func() {
		select {
		case a.askers.asks <- call:
		case <-call.context.Done():
			call.end(call.context.Err())
		}
	}()
}
