package keeper

import (
	"io"
	"sync/atomic"
	"time"

	"review-front/program"
	"review-front/spool"
)

// looksInTime is how often it is looked at a program within the time of a reply.
const looksInTime = 8

// mostAtOnce is of how many lines that are on their way the time counts together at most.
const mostAtOnce = 8

// watched is a program of which each reply has its time. One that hangs is killed.
type watched struct {
	*program.Program
	keeper *Keeper
	work   func() program.Work  // what processors do for it
	time   time.Duration        // how long a reply may take
	call   atomic.Pointer[Call] // whose reply is due, where that is a client's
	due    atomic.Bool          // a reply is due
	count  atomic.Uint64        // how many replies came
	stuck  atomic.Bool          // the program hasn't moved for a while, and a reply is due
	late   atomic.Bool          // it was killed for that
	// timed counts the lines on their way whose replies have a time, and lasting those whose replies may take long.
	timed, lasting atomic.Int64
}

// start starts a program, which holds nothing.
func (k *Keeper) start() (*watched, error) {
	p, err := k.Command.Start()
	if err != nil {
		return nil, err
	}
	w := &watched{Program: p, keeper: k, work: p.Work, time: k.ReplyTime}
	if w.time > 0 {
		go w.watch()
	}
	return w, nil
}

// Receive waits for the next reply.
func (w *watched) Receive() ([]byte, error) {
	w.due.Store(true)
	defer w.came()
	return w.Program.Receive()
}

// ReceiveLong waits for the next reply, of which what is long waits in a file.
func (w *watched) ReceiveLong(to *spool.Spool) (program.Reply, error) {
	w.due.Store(true)
	defer w.came()
	return w.Program.ReceiveLong(to)
}

// ReceiveTo waits for the next reply and writes it as it comes.
func (w *watched) ReceiveTo(to io.Writer) (wrote, err error) {
	w.due.Store(true)
	defer w.came()
	return w.Program.ReceiveTo(to)
}

// came says that a reply came.
func (w *watched) came() {
	w.count.Add(1)
	w.due.Store(false)
}

// look is what was seen of a program while one reply was due.
type look struct {
	count uint64
	at    time.Time
	took  time.Duration // how long processors had worked for it
	spent time.Duration // how much of its time the reply has had
	still time.Duration // how long the program has stood still
}

// watch looks at the program until it ends. A reply that takes long is waited for while the program moves, if it is
// one that may take long.
func (w *watched) watch() {
	tick := time.NewTicker(w.pause())
	defer tick.Stop()
	var last *look
	for {
		select {
		case <-w.Done():
			return
		case <-tick.C:
		}
		count := w.count.Load()
		if !w.due.Load() {
			last = nil
			w.stuck.Store(false)
			continue
		}
		if last == nil || last.count != count {
			last = &look{count: count, at: time.Now(), took: w.work().Took}
			w.stuck.Store(false)
			continue
		}
		if w.hangs(last, time.Now()) {
			w.late.Store(true)
			w.keeper.Log.Error("a line took too long, and the program is ended", "process", w.ID(), "line", w.shown())
			w.Kill()
			return
		}
	}
}

// pause is how long it isn't looked.
func (w *watched) pause() time.Duration { return w.time/looksInTime + 1 }

// hangs looks once more, and says whether the reply has had its time. That counts what processors work for the program,
// and the clock while none does and it doesn't wait for one: on a machine that is busy a reply may take as long as the
// program comes to no processor. A program that moves takes nothing of the time of a reply that may take long.
func (w *watched) hangs(last *look, now time.Time) bool {
	work := w.work()
	passed, worked := now.Sub(last.at), work.Took-last.took
	if most := 2 * w.pause(); passed > most {
		passed = most // the front itself didn't come to look
	}
	last.at, last.took = now, work.Took
	switch {
	case worked <= 0 && !work.Runs:
		last.still += passed
		last.spent += passed
	case w.mayTakeLong():
		last.still, last.spent = 0, 0
	default:
		last.still = 0
		last.spent += worked / w.atOnce()
	}
	w.stuck.Store(last.still > 3*w.pause()/2)
	return last.spent >= w.time
}

// atOnce is how many lines the program may be working on: it holds a reply back while there are lines behind.
func (w *watched) atOnce() time.Duration {
	switch due := w.timed.Load(); {
	case due < 1:
		return 1 // none has a time, or it is just being sent
	case due < mostAtOnce:
		return time.Duration(due)
	}
	return mostAtOnce
}

// mayTakeLong says whether the reply that is due may take longer than its time while the program moves, as those to the
// lines of a replay may, and those that are held back for lines behind which take long.
func (w *watched) mayTakeLong() bool {
	call := w.call.Load()
	if call == nil {
		return true
	}
	how := call.pace()
	return how == lasting || how == light && w.lasting.Load() > 0
}

// shown is the beginning of the line whose reply is due.
func (w *watched) shown() string {
	call := w.call.Load()
	if call == nil {
		return ""
	}
	return string(beginning(call.Line))
}
