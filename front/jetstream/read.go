//go:build nats

package jetstream

import (
	"context"
	"errors"
	"fmt"
	"time"

	"github.com/nats-io/nats.go"

	"review-front/replicated"
)

const (
	// quiet is how long nothing comes until it is asked whether there is nothing.
	quiet = time.Second
	// heartbeat is how often a server says that nothing comes.
	heartbeat = 5 * time.Second
	// lackTime is how long the server that leads may lack edits that were read, and come to no more, until it is asked to
	// let another one lead, and lostTime until it is said that they are lost: a new one applies what it has for a while.
	lackTime = 20 * time.Second
	lostTime = time.Minute
	// mostTogether and bytesTogether are how many edits are asked of the leader at once, and about how long these are.
	mostTogether  = 64
	bytesTogether = 1 << 20
	// mostAsked is how often it is asked for them until the stream is read anew.
	mostAsked = 10
)

// reading reads a stream for a front. Servers of NATS bring it what is new; where they don't, or none can be told to,
// the one that leads is asked for it again and again: a server that is stopped, or whose disk is full, may be the one
// that is to bring it, or the one that has to be told.
type reading struct {
	*log
	behind uint64
	take   func(replicated.Edit) error
	from   *nats.Subscription // nil while nothing is brought
	made   chan *nats.Subscription
	pause  time.Duration // until a server is told again to bring what is new
	again  time.Time     // when that is
	lacks  lacking
}

// lacking is since when the server that leads lacks edits that were read, where it ends, and which it is.
type lacking struct {
	since  time.Time // nothing where it has all
	last   uint64
	leader string
}

// sees sees where the stream ends, and gives how long the same server has lacked edits and come to no more.
func (l *lacking) sees(now lacking, behind uint64) time.Duration {
	switch {
	case now.last >= behind:
		*l = lacking{}
		return 0
	case l.since.IsZero() || l.last != now.last || l.leader != now.leader:
		*l = now
	}
	return now.since.Sub(l.since)
}

// Read hands out all edits behind a sequence.
func (l *log) Read(ctx context.Context, behind uint64, take func(replicated.Edit) error) error {
	r := &reading{log: l, behind: behind, take: take, pause: firstPause}
	defer r.leave()
	for {
		r.subscribe()
		read := r.asked
		if r.from != nil {
			read = r.brought
		}
		if err := read(ctx); err != nil {
			return err
		}
	}
}

// subscribe has a server bring what is new, or goes on having it told to.
func (r *reading) subscribe() {
	if r.from != nil {
		return
	}
	if r.made == nil && time.Now().After(r.again) {
		r.made = make(chan *nats.Subscription, 1)
		go r.make(r.behind, r.pause < lastPause, r.made)
	}
	select {
	case r.from = <-r.made:
		r.made = nil
		if r.from == nil {
			r.again = time.Now().Add(r.pause)
			r.pause = longer(r.pause)
		}
	case <-time.After(r.patience()):
	}
}

// patience is how long it is waited for that. A stream of one server is read no other way.
func (r *reading) patience() time.Duration {
	if r.replicas.Load() > 1 {
		return 0
	}
	return firstPause
}

// make tells a server to bring what is new, and may say so where that can't be done.
func (r *reading) make(behind uint64, tell bool, made chan<- *nats.Subscription) {
	// The client's ordered consumer begins anew by itself, twice at once where the machine stood still. A gap is seen
	// here.
	from, err := r.jet.SubscribeSync(r.subject, nats.BindStream(r.Stream), nats.StartSequence(behind+1), nats.AckNone(),
		nats.ConsumerReplicas(1), nats.ConsumerMemoryStorage(), nats.EnableFlowControl(), nats.IdleHeartbeat(heartbeat))
	if err != nil {
		from = nil
	}
	if err != nil && tell {
		r.log.log.Error("no server brings what the stream has", "behind", behind, "error", err)
	}
	made <- from
}

// drop has nothing be brought any more, and says why. To find out who was to bring it may take a while.
func (r *reading) drop(why error) {
	go func(from *nats.Subscription, behind uint64) {
		server := serverOf(from)
		r.log.log.Error("a server of the stream doesn't bring what is new", "server", server, "behind", behind, "error", why)
		unsubscribe(from)
	}(r.from, r.behind)
	r.from, r.again = nil, time.Now().Add(r.pause)
	r.pause = longer(r.pause)
}

// leave ends it.
func (r *reading) leave() {
	if r.from != nil {
		go unsubscribe(r.from)
	}
	if r.made != nil {
		go func(made <-chan *nats.Subscription) { unsubscribe(<-made) }(r.made)
	}
}

// unsubscribe has a server bring nothing more. That may take a while.
func unsubscribe(from *nats.Subscription) {
	if from != nil {
		_ = from.Unsubscribe()
	}
}

// asked asks the server that leads the stream for what it has behind what was read, or waits a while.
func (r *reading) asked(ctx context.Context) error {
	if r.replicas.Load() <= 1 {
		return ctx.Err()
	}
	edits, err := r.atLeaderBehind(ctx, r.behind, 1)
	if err == nil {
		var more []replicated.Edit
		more, err = r.atLeaderBehind(ctx, r.behind+1, mostTogether-1)
		edits = append(edits, more...)
	}
	for _, edit := range edits {
		if err := r.take(edit); err != nil {
			return err
		}
		r.behind++
	}
	if len(edits) > 0 {
		return ctx.Err()
	}
	if errors.Is(err, errLacks) {
		if err := r.missed(ctx); err != nil {
			return err
		}
	}
	return rest(ctx, firstPause)
}

// brought waits a while for what is brought, and hands it out.
func (r *reading) brought(ctx context.Context) error {
	messages, err := next(ctx, r.from)
	switch {
	case ctx.Err() != nil:
		return ctx.Err()
	case errors.Is(err, context.DeadlineExceeded):
		return r.missed(ctx)
	case err != nil && r.replicas.Load() > 1:
		r.drop(err)
		return nil
	case err != nil:
		return fmt.Errorf("reading the stream: %w", err)
	}
	edits, err := editsOf(messages, r.behind)
	if err != nil {
		return err
	}
	if err := r.handOut(ctx, r.from, edits, r.take); err != nil {
		return err
	}
	r.behind += uint64(len(edits))
	r.pause = firstPause
	return nil
}

// next waits a while for messages, and gives those that there are.
func next(ctx context.Context, from *nats.Subscription) ([]*nats.Msg, error) {
	waiting, cancel := context.WithTimeout(ctx, quiet)
	defer cancel()
	message, err := from.NextMsgWithContext(waiting)
	if err != nil {
		return nil, err
	}
	messages := []*nats.Msg{message}
	for bytes := len(message.Data); len(messages) < mostTogether && bytes < bytesTogether; bytes += len(message.Data) {
		if waits, _, err := from.Pending(); err != nil || waits == 0 {
			break // what goes wrong is seen when there is none
		}
		if message, err = from.NextMsgWithContext(waiting); err != nil {
			break
		}
		messages = append(messages, message)
	}
	return messages, nil
}

// editsOf reads messages as the edits behind a sequence. Those that came before are passed over.
func editsOf(messages []*nats.Msg, behind uint64) ([]replicated.Edit, error) {
	var edits []replicated.Edit
	for _, message := range messages {
		about, err := message.Metadata()
		if err != nil {
			return nil, fmt.Errorf("a message of the stream: %w", err)
		}
		last := behind + uint64(len(edits))
		if about.Sequence.Stream > last+1 {
			return nil, fmt.Errorf("sequence %d of the stream follows %d", about.Sequence.Stream, last)
		}
		if about.Sequence.Stream == last+1 {
			edits = append(edits, editAt(message.Header, message.Data, last+1, about.Timestamp))
		}
	}
	return edits, nil
}

// handOut hands out edits that a server brought, as the one has them that leads the stream.
func (l *log) handOut(
	ctx context.Context, from *nats.Subscription, edits []replicated.Edit, take func(replicated.Edit) error,
) error {
	for asked, pause := 1, firstPause; len(edits) > 0; asked, pause = asked+1, longer(pause) {
		led, err := edits, error(nil)
		if l.replicas.Load() > 1 {
			led, err = l.confirmed(ctx, edits, from)
		}
		for _, edit := range led {
			if err := take(edit); err != nil {
				return err
			}
		}
		edits = edits[len(led):]
		if err != nil && asked == mostAsked {
			return err
		}
		if err != nil {
			if err := rest(ctx, pause); err != nil {
				return err
			}
		}
	}
	return nil
}

// missed sees, where nothing came, whether the stream has more than was read, or less.
func (r *reading) missed(ctx context.Context) error {
	if !r.connection.IsConnected() {
		return nil // it goes on where it was, or that is seen then
	}
	extent, err := r.Extent(ctx)
	if err != nil {
		return nil
	}
	lacks := r.lacks.sees(lacking{since: time.Now(), last: extent.Last, leader: r.State().Leader}, r.behind)
	r.watched.lack(lacks > lackTime+r.watched.patience)
	switch {
	case lacks > lostTime:
		return fmt.Errorf("the stream ends at sequence %d, and was read up to %d: it has lost edits", extent.Last, r.behind)
	case extent.First > r.behind+1:
		return fmt.Errorf("sequence %d of the stream follows %d", extent.First, r.behind)
	case extent.Last > r.behind && r.from != nil:
		why := fmt.Errorf("the stream has sequence %d, and nothing came behind %d", extent.Last, r.behind)
		if r.replicas.Load() <= 1 {
			return why
		}
		r.drop(why)
	}
	return nil
}
