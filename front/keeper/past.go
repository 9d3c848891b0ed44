package keeper

import (
	"context"
	"errors"
	"fmt"
	"sync"
	"time"

	"review-front/folder"
	"review-front/frame"
	"review-front/line"
)

// pastRest is after how long without a question a program of an earlier state is let go.
const pastRest = 10 * time.Minute

// Gone says that a state isn't known any more.
type Gone struct {
	Serial uint64
	Why    error
}

func (g *Gone) Error() string {
	return fmt.Sprintf("the state of serial %d isn't known any more: %v", g.Serial, g.Why)
}

// OtherProgram says that a program answers edits of the journal otherwise than the one that accepted them.
type OtherProgram struct{ Why error }

func (o *OtherProgram) Error() string { return o.Why.Error() }

// pasts are programs of earlier states, which answer what was so then.
type pasts struct {
	keeper *Keeper
	most   int
	mutex  sync.Mutex
	all    []*pastState  // the one that was asked last stands last
	making chan struct{} // holds something while one is made
}

// pastState is a program that has the state of a serial, or is brought to it.
type pastState struct {
	serial uint64
	users  int
	used   time.Time
	asking chan struct{} // holds something while it is asked, or made
	now    *running      // nil: it isn't made yet, or has ended
}

func newPasts(k *Keeper, most int) *pasts {
	return &pasts{keeper: k, most: most, making: make(chan struct{}, 1)}
}

// ErrPasts says that all programs of earlier states are asked.
var ErrPasts = &Unavailable{Why: "as many earlier states are asked as may be", After: time.Second}

// take gives the program of a serial, and has none of its users miss it. Where there are as many as there may be, the
// one that was asked longest ago, and isn't asked now, goes.
func (p *pasts) take(serial uint64) (*pastState, error) {
	p.mutex.Lock()
	defer p.mutex.Unlock()
	for i, one := range p.all {
		if one.serial == serial {
			p.all = append(append(p.all[:i:i], p.all[i+1:]...), one)
			one.users++
			return one, nil
		}
	}
	if len(p.all) >= p.most && !p.release(func(*pastState) bool { return true }) {
		return nil, ErrPasts
	}
	made := &pastState{serial: serial, users: 1, asking: make(chan struct{}, 1)}
	p.all = append(p.all, made)
	return made, nil
}

// release lets the first go of those that nobody asks, and that may go.
func (p *pasts) release(may func(*pastState) bool) bool {
	for i, one := range p.all {
		if one.users == 0 && may(one) {
			p.all = append(p.all[:i:i], p.all[i+1:]...)
			if one.now != nil {
				go one.now.Close()
			}
			return true
		}
	}
	return false
}

// give says that one who took a program doesn't ask it any more.
func (p *pasts) give(one *pastState) {
	p.mutex.Lock()
	defer p.mutex.Unlock()
	one.users--
	one.used = time.Now()
}

// run lets programs go that nobody asks any more, and all once the context is done.
func (p *pasts) run(ctx context.Context) {
	tick := time.NewTicker(pastRest / 10)
	defer tick.Stop()
	for {
		select {
		case now := <-tick.C:
			p.mutex.Lock()
			for p.release(func(one *pastState) bool { return now.Sub(one.used) > pastRest }) {
			}
			p.mutex.Unlock()
		case <-ctx.Done():
			// One that is asked just now ends with the pipe.
			p.mutex.Lock()
			defer p.mutex.Unlock()
			for p.release(func(*pastState) bool { return true }) {
			}
			return
		}
	}
}

// At asks questions of the state of a serial, and gives the replies. What it needs for that it keeps for the next one.
func (k *Keeper) At(ctx context.Context, serial uint64, lines ...[]byte) ([]Reply, error) {
	p := k.pasts
	one, err := p.take(serial)
	if err != nil {
		return nil, err
	}
	defer p.give(one)
	select {
	case one.asking <- struct{}{}:
	case <-ctx.Done():
		return nil, ctx.Err()
	}
	defer func() { <-one.asking }()
	if one.now != nil && one.now.hasEnded() {
		one.now.Discard()
		one.now = nil
	}
	if one.now == nil {
		if one.now, err = p.make(ctx, serial); err != nil {
			return nil, err
		}
	}
	stop := killWith(ctx, one.now.watched)
	defer stop()
	var replies []Reply
	for _, l := range lines {
		reply, err := one.ask(l)
		if err != nil {
			one.now.Discard()
			one.now = nil
			return nil, ErrEnded
		}
		replies = append(replies, reply)
	}
	return replies, nil
}

// hasEnded says whether the process has.
func (w *watched) hasEnded() bool {
	select {
	case <-w.Done():
		return true
	default:
		return false
	}
}

// ask asks one question.
func (s *pastState) ask(l []byte) (Reply, error) {
	k := s.now.keeper
	if err := s.now.Send(l); err != nil {
		return Reply{}, err
	}
	if err := s.now.Flush(); err != nil {
		return Reply{}, err
	}
	if kind, _ := line.Read(l); kind != line.Report {
		body, err := s.now.Receive()
		return Reply{Body: s.now.numbered(body), Serial: s.serial}, err
	}
	said, err := s.now.ReceiveLong(k.Spool)
	if err == nil && said.Lost != nil {
		k.Log.Error("a reply is given up", "error", said.Lost)
		return Reply{Err: ErrSpool, Serial: s.serial}, nil
	}
	return Reply{Body: s.now.numbered(said.Body), Rest: said.Rest, Serial: s.serial}, err
}

// make makes a program of the state of a serial, one at a time.
func (p *pasts) make(ctx context.Context, serial uint64) (*running, error) {
	k := p.keeper
	select {
	case p.making <- struct{}{}:
	case <-ctx.Done():
		return nil, ctx.Err()
	}
	defer func() { <-p.making }()
	began := time.Now()
	snapshot, err := k.Folder.Nearest(serial)
	if err == nil && snapshot.Serial > serial {
		err = fmt.Errorf("the first state is that of serial %d", snapshot.Serial)
	}
	if err != nil {
		return nil, &Gone{Serial: serial, Why: err}
	}
	w, err := k.aside()
	if err != nil {
		return nil, err
	}
	stop := killWith(ctx, w)
	defer stop()
	r := &running{watched: w, serial: snapshot.Serial}
	replay := begin(ctx, w, false)
	edits, err := replay.snapshotLines(snapshot, nil)
	r.numbers = from(edits, snapshot.Serial)
	if err == nil && snapshot.Serial < serial {
		err = k.Folder.Each(snapshot.Serial, func(entry folder.Entry, place folder.Place) error {
			if entry.Serial > serial {
				return errEnough
			}
			return r.tell(replay, entry, place)
		})
	}
	if err == errEnough {
		err = nil
	}
	if err = replay.end(err); err != nil {
		w.Discard()
		return nil, pastFault(ctx, serial, err)
	}
	k.Log.Info("an earlier state stands", "serial", serial, "replayed", serial-snapshot.Serial, "took", time.Since(began),
		"process", w.ID())
	return r, nil
}

// pastFault says why there is no program of an earlier state.
func pastFault(ctx context.Context, serial uint64, err error) error {
	var otherwise *mismatch
	var damage *frame.Damage
	switch {
	case ctx.Err() != nil:
		return ctx.Err()
	case errors.As(err, &otherwise):
		return &OtherProgram{Why: err}
	case errors.As(err, &damage):
		return &Gone{Serial: serial, Why: err}
	}
	return err
}
