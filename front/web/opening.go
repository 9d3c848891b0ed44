package web

import (
	"context"
	"errors"
	"net/http"
	"sync"

	"review-front/keeper"
	"review-front/line"
)

// errOver says that an answer ends with what was written: its status is that of its first line.
var errOver = errors.New("the first line has no reply")

// gate counts the lines of a stream that are taken. It is shut while the first of them has no reply of the program, and
// it isn't known yet whether one behind it was accepted.
type gate struct {
	mutex  sync.Mutex
	moved  *sync.Cond
	taken  int
	closed bool
	over   bool
}

func newGate() *gate {
	g := &gate{}
	g.moved = sync.NewCond(&g.mutex)
	return g
}

// pass takes a line once the gate is open, and is false where no line is taken any more.
func (g *gate) pass() bool {
	g.mutex.Lock()
	defer g.mutex.Unlock()
	for g.closed && !g.over {
		g.moved.Wait()
	}
	if g.over {
		return false
	}
	g.taken++
	return true
}

// failed says that the line which was taken last has no reply. If it is the first, none passes behind it.
func (g *gate) failed() {
	g.mutex.Lock()
	defer g.mutex.Unlock()
	g.closed = g.closed || g.taken == 1
}

// shut lets no more lines pass for now, and says how many have.
func (g *gate) shut() int {
	g.mutex.Lock()
	defer g.mutex.Unlock()
	g.closed = true
	return g.taken
}

// open lets lines pass again.
func (g *gate) open() {
	g.mutex.Lock()
	defer g.mutex.Unlock()
	g.closed = false
	g.moved.Broadcast()
}

// end lets no line pass any more.
func (g *gate) end() {
	g.mutex.Lock()
	defer g.mutex.Unlock()
	g.over = true
	g.moved.Broadcast()
}

// begin writes the head of the answer, and the reply to the first line. Where that has none of the program, the status
// is that of its problem, so that the whole body can be sent again, but only if no line on its way behind it was
// accepted; then the answer ends with these.
func (in *stream) begin(ctx context.Context, w *answered, first pending) error {
	reply, told := first.wait(ctx)
	if err := ctx.Err(); err != nil {
		reply.Drop()
		return err
	}
	in.tally.see(first.line, &reply, told)
	if told == nil {
		w.Header().Set("Content-Type", linesType)
		_, err := reply.WriteTo(w)
		in.free(first)
		return err
	}
	in.free(first)
	behind, accepted := in.behind(ctx)
	if err := ctx.Err(); err != nil {
		drop(behind)
		return err
	}
	if accepted {
		w.Header().Set("Content-Type", linesType)
		w.WriteHeader(http.StatusOK)
		in.gate.open()
	} else {
		told.head(w, linesType)
	}
	for i, next := range append([]keeper.Reply{reply}, behind...) {
		if _, err := next.WriteTo(w); err != nil {
			drop(behind[i:])
			return err
		}
	}
	if !accepted {
		return errOver
	}
	return nil
}

// drop gives back what replies had that aren't written.
func drop(replies []keeper.Reply) {
	for _, reply := range replies {
		reply.Drop()
	}
}

// behind is the replies to the lines that are on their way behind the first, and says whether one was accepted.
func (in *stream) behind(ctx context.Context) (replies []keeper.Reply, accepted bool) {
	for due := in.gate.shut() - 1; due > 0 && ctx.Err() == nil; due-- {
		next := <-in.out
		reply, told := next.wait(ctx)
		in.free(next)
		if ctx.Err() == nil {
			in.tally.see(next.line, &reply, told)
		}
		_, ok := line.ReadAccepted(reply.Body)
		accepted = accepted || ok
		replies = append(replies, reply)
	}
	return replies, accepted
}
