//go:build nats

package jetstream

import (
	"context"
	"math/rand"
	"sort"
	"sync"
	"time"

	"github.com/nats-io/nats.go"

	"review-front/replicated"
)

const (
	// lookPause lies between two looks at who leads the stream, and lostPause while nobody does.
	lookPause = time.Second
	lostPause = 250 * time.Millisecond
	// mostMissed is how many looks in a row aren't answered until nobody leads.
	mostMissed = 2
	// silentTime is how long the leader hears nothing of a server until that is told, and quorumTime how long it hears
	// nothing of most of them until edits get 503: none is agreed on then.
	silentTime = 10 * time.Second
	quorumTime = 5 * time.Second
	// askAgain is how long after one is asked to let another server lead it may be asked again.
	askAgain = 10 * time.Second
)

// watched is what is known of the servers of the stream.
type watched struct {
	mutex      sync.Mutex
	leader     string // nothing where nobody leads
	led        bool
	missed     int                  // looks in a row that weren't answered
	since      time.Time            // when it was first seen that nobody leads
	silent     map[string]time.Time // servers of which the leader hears nothing, and since when
	why        map[string]string    // what was found out of them
	unanswered time.Time            // since when no edit that was sent is answered; nothing where one was
	late       time.Time            // when the last one wasn't
	trying     bool                 // whether one is on its way then
	lacks      bool                 // whether the leader lacks edits that were read
	asked      time.Time            // when it was asked last to let another one lead
	lost       chan struct{}        // says that nobody may lead now
	patience   time.Duration        // by which this front asks later than others
}

func newWatched() *watched {
	chance := rand.New(rand.NewSource(time.Now().UnixNano()))
	return &watched{
		led: true, silent: map[string]time.Time{}, why: map[string]string{}, lost: make(chan struct{}, 1),
		patience: time.Duration(chance.Int63n(int64(askAgain))),
	}
}

// State is what is known of who keeps the stream.
func (l *log) State() replicated.State {
	w := l.watched
	w.mutex.Lock()
	defer w.mutex.Unlock()
	state := replicated.State{Led: w.led && !w.isStalled(), Leader: w.leader}
	for name, since := range w.silent {
		state.Silent = append(state.Silent, replicated.Silent{Server: name, Since: since, Why: w.why[name]})
	}
	sort.Slice(state.Silent, func(i, j int) bool { return state.Silent[i].Server < state.Silent[j].Server })
	return state
}

// isLed says whether a server leads the stream, as far as is known.
func (w *watched) isLed() bool {
	w.mutex.Lock()
	defer w.mutex.Unlock()
	return w.led
}

// begin says whether an edit may be sent, and end that it has its answer, or none. Where the last one wasn't
// acknowledged one is sent at a time, and no other waits for nothing.
func (w *watched) begin() bool {
	w.mutex.Lock()
	defer w.mutex.Unlock()
	if !w.led || w.isStalled() && w.trying {
		return false
	}
	w.trying = w.isStalled()
	return true
}

func (w *watched) end() {
	w.mutex.Lock()
	defer w.mutex.Unlock()
	w.trying = false
}

// isStalled says whether no edit is answered, as of the last ones. It is for who has the mutex.
func (w *watched) isStalled() bool {
	return !w.unanswered.IsZero() && time.Since(w.unanswered) > askTime && time.Since(w.late) < silentTime
}

// answered says whether an edit that was sent is answered.
func (w *watched) answered(is bool) {
	w.mutex.Lock()
	defer w.mutex.Unlock()
	if is {
		w.unanswered = time.Time{}
		return
	}
	if w.late = time.Now(); w.unanswered.IsZero() {
		w.unanswered = w.late
	}
}

// nobody says that nobody heard an edit: the next look says more.
func (w *watched) nobody() {
	w.mutex.Lock()
	defer w.mutex.Unlock()
	w.led = false
	select {
	case w.lost <- struct{}{}:
	default:
	}
}

// lack says whether the server that leads lacks edits that were read.
func (w *watched) lack(is bool) {
	w.mutex.Lock()
	defer w.mutex.Unlock()
	w.lacks = is
}

// watch looks at who leads the stream, and which of its servers take no edits, until the connection is closed.
func (l *log) watch() {
	for {
		pause := lookPause
		if !l.watched.isLed() {
			pause = lostPause
		}
		select {
		case <-time.After(pause):
		case <-l.watched.lost:
		case <-l.closed:
			return
		}
		ctx, cancel := context.WithTimeout(context.Background(), pause+lookPause)
		info, err := l.info(ctx)
		cancel()
		l.saw(info, err)
		if why := l.watched.isToChange(); err == nil && why != "" {
			l.stepDown(info.Cluster, why)
		}
	}
}

// saw takes what a look says.
func (l *log) saw(info *nats.StreamInfo, err error) {
	w := l.watched
	w.mutex.Lock()
	defer w.mutex.Unlock()
	leader := ""
	if err == nil && info.Cluster != nil {
		leader = info.Cluster.Leader
	}
	if err != nil || info.Cluster != nil && (leader == "" || !agrees(info.Cluster)) {
		if w.missed++; w.missed == mostMissed {
			w.led, w.leader, w.since = false, "", time.Now()
			l.log.Error("no server leads the stream: edits get 503")
		}
		return
	}
	if w.missed >= mostMissed {
		l.log.Info("a server leads the stream again", "server", leader, "after", time.Since(w.since).Round(time.Millisecond))
	} else if leader != w.leader {
		l.log.Info("a server leads the stream", "server", leader, "before", w.leader)
	}
	if w.missed >= mostMissed || leader != w.leader {
		w.unanswered, w.lacks = time.Time{}, false // what was of another one says nothing of this one
	}
	w.led, w.leader, w.missed = true, leader, 0
	l.hear(info)
}

// agrees says whether the server that leads hears of so many that edits can be agreed on.
func agrees(cluster *nats.ClusterInfo) bool {
	heard := 1
	for _, replica := range cluster.Replicas {
		if replica.Active < quorumTime && !replica.Offline {
			heard++
		}
	}
	return 2*heard > len(cluster.Replicas)+1
}

// hear sees which servers the leader hears nothing of. It is for who has the mutex.
func (l *log) hear(info *nats.StreamInfo) {
	w := l.watched
	if info.Cluster == nil {
		return
	}
	now := time.Now()
	for _, replica := range info.Cluster.Replicas {
		since, told := w.silent[replica.Name]
		switch quiet := replica.Active > silentTime || replica.Offline; {
		case quiet && !told:
			w.silent[replica.Name] = now.Add(-replica.Active)
			go l.findOut(replica.Name, replica.Lag)
		case !quiet && told:
			delete(w.silent, replica.Name)
			delete(w.why, replica.Name)
			l.log.Info("a server of the stream is heard of again", "server", replica.Name,
				"after", now.Sub(since).Round(time.Second))
		}
	}
	// Of the leader itself nothing is said there.
	if _, told := w.silent[info.Cluster.Leader]; told {
		delete(w.silent, info.Cluster.Leader)
		delete(w.why, info.Cluster.Leader)
	}
}

// findOut tells of a server of which the leader hears nothing whether it answers clients.
func (l *log) findOut(server string, lag uint64) {
	why := "it doesn't answer: it is stopped, or cut off"
	if l.answers(server) {
		why = "it answers, and takes no edits: see whether its disk is full"
	}
	w := l.watched
	w.mutex.Lock()
	since, still := w.silent[server]
	if still {
		w.why[server] = why
	}
	w.mutex.Unlock()
	if still {
		l.log.Error("a server of the stream takes no edits", "server", server, "why", why, "lacks", lag,
			"since", since.UTC().Format(time.RFC3339))
	}
}

// isToChange says why another server is to lead the stream, or nothing: the one that does has lacked edits that were
// read, or acknowledged none, for long. One that is stopped can't be asked for that: the others agree on another one by
// themselves.
func (w *watched) isToChange() (why string) {
	w.mutex.Lock()
	defer w.mutex.Unlock()
	switch {
	case w.leader == "" || time.Since(w.asked) < askAgain:
		return ""
	case w.lacks:
		why = "it lacks edits that were read: its store is to be emptied"
	case w.isStalled() && time.Since(w.unanswered) > lackTime+w.patience:
		why = "it acknowledges no edit"
	default:
		return ""
	}
	w.asked = time.Now()
	return why
}

// stepDown asks the server that leads the stream to let another one do so.
func (l *log) stepDown(cluster *nats.ClusterInfo, why string) {
	if cluster == nil || len(cluster.Replicas) == 0 {
		return
	}
	said, err := l.connection.Request("$JS.API.STREAM.LEADER.STEPDOWN."+l.Stream, nil, askTime)
	if err == nil {
		_, err = acknowledged(said)
	}
	answer := "it does"
	if err != nil {
		answer = err.Error()
	}
	l.log.Error("the server that leads the stream is asked to let another one lead", "server", cluster.Leader, "why", why,
		"answer", answer)
}
