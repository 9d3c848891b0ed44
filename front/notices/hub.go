// Package notices hands what edits changed to all who listen.
package notices

import (
	"bytes"
	"io"
	"math"
	"sync"
	"time"

	"review-front/spool"
)

// Waiting is how many events wait for a listener, and WaitingBytes how long they are at most where there are several.
// Who is further behind is let go.
const (
	Waiting      = 256
	WaitingBytes = 64 << 20
)

// returning is from how many serials listeners who come back are answered at a time; others wait.
const returning = 32

// The kinds of events.
const (
	From = "from"    // from this serial on everything is told
	Told = "notices" // what changed since the event before
	Anew = "anew"    // what was told may have a gap: read the table anew
)

// Unknown is what a listener has heard who says no serial: no table is at it.
const Unknown = math.MaxUint64

// Event is told to a listener.
type Event struct {
	Kind   string
	Serial uint64      // of the state that stands behind it
	Data   []byte      // of notices, those of the program; where there is a rest, their beginning
	Rest   *spool.File // of long ones that few hear, what stands in a file
}

// Reader reads all of an event's notices.
func (e Event) Reader() io.Reader {
	if e.Rest == nil {
		return bytes.NewReader(e.Data)
	}
	return io.MultiReader(bytes.NewReader(e.Data), e.Rest.Reader())
}

type stage int

const (
	waiting stage = iota // it isn't known yet from where on it listens
	joining              // that is asked
	listening
)

// Listener gets events until its channel is closed.
type Listener struct {
	hub    *Hub
	events chan Event
	stage  stage
	back   bool   // it comes back, and has heard all up to
	heard  uint64 // this serial
	taken  uint64 // up to which serial all was sent on to it
	bytes  int    // of the events that wait
}

// Events is where a listener's events come. It is closed when the listener is let go.
func (l *Listener) Events() <-chan Event { return l.events }

// Took says that an event was sent on.
func (l *Listener) Took(event Event) {
	if event.Rest != nil {
		event.Rest.Close()
	}
	l.hub.mutex.Lock()
	defer l.hub.mutex.Unlock()
	l.bytes -= len(event.Data)
	l.taken = event.Serial
}

// Hub knows all listeners.
type Hub struct {
	mutex     sync.Mutex
	listeners map[*Listener]struct{}
	serial    uint64    // up to which all was told to who listens
	left      time.Time // when somebody left last
	taken     uint64    // up to which serial all was sent on to each who left lately
	lately    time.Duration
	closed    bool
}

// NewHub is a hub without listeners, to whom who left may come back for a while.
func NewHub(lately time.Duration) *Hub {
	return &Hub{listeners: map[*Listener]struct{}{}, lately: lately}
}

// Listen begins to listen. Its first event says from which serial on.
func (h *Hub) Listen() *Listener { return h.listen(&Listener{taken: Unknown}) }

// Return begins to listen for one who has heard all up to a serial.
func (h *Hub) Return(heard uint64) *Listener {
	return h.listen(&Listener{back: true, heard: heard, taken: heard})
}

func (h *Hub) listen(l *Listener) *Listener {
	h.mutex.Lock()
	defer h.mutex.Unlock()
	l.hub, l.events = h, make(chan Event, Waiting)
	if h.closed {
		close(l.events)
		return l
	}
	h.listeners[l] = struct{}{}
	return l
}

// Leave ends listening. Events that nobody took are given back.
func (l *Listener) Leave() {
	l.hub.mutex.Lock()
	l.hub.drop(l)
	l.hub.mutex.Unlock()
	for event := range l.events {
		l.Took(event)
	}
}

func (h *Hub) drop(l *Listener) {
	if _, there := h.listeners[l]; there {
		delete(h.listeners, l)
		close(l.events)
		if time.Since(h.left) >= h.lately || l.taken < h.taken {
			h.taken = l.taken
		}
		h.left = time.Now()
	}
}

// Expects says whether somebody listens, or left lately and may come back.
func (h *Hub) Expects() bool {
	h.mutex.Lock()
	defer h.mutex.Unlock()
	return len(h.listeners) > 0 || time.Since(h.left) < h.lately
}

// Missed says whether somebody who left lately hasn't heard all up to a serial.
func (h *Hub) Missed(serial uint64) bool {
	h.mutex.Lock()
	defer h.mutex.Unlock()
	return time.Since(h.left) < h.lately && h.taken < serial
}

// Expect says that somebody listened before a start, and may come back.
func (h *Hub) Expect() {
	h.mutex.Lock()
	defer h.mutex.Unlock()
	h.left, h.taken = time.Now(), 0
}

// Count is how many listen.
func (h *Hub) Count() int {
	h.mutex.Lock()
	defer h.mutex.Unlock()
	return len(h.listeners)
}

// Waits says whether somebody waits to know from where on he listens.
func (h *Hub) Waits() bool {
	h.mutex.Lock()
	defer h.mutex.Unlock()
	for l := range h.listeners {
		if l.stage == waiting {
			return true
		}
	}
	return false
}

// Round is what is asked, at one serial, to tell it.
type Round struct {
	Any    bool   // whether anybody is there
	All    bool   // whether anybody listens, who is told what changed since
	Since  uint64 // this serial
	Back   map[uint64]*Event
	joined []*Listener
}

// Begin says what is to be asked: what changed since the last round, and since what listeners who come back have heard.
func (h *Hub) Begin() *Round {
	h.mutex.Lock()
	defer h.mutex.Unlock()
	round := &Round{Any: len(h.listeners) > 0, Since: h.serial, Back: map[uint64]*Event{}}
	for l := range h.listeners {
		if l.stage == listening {
			round.All = true
		}
		if l.stage != waiting || l.back && round.Back[l.heard] == nil && len(round.Back) >= returning {
			continue
		}
		l.stage = joining
		round.joined = append(round.joined, l)
		if l.back {
			round.Back[l.heard] = &Event{Kind: Anew}
		}
	}
	return round
}

// Fail says that a round has no answer: those who wait are asked for in the next one.
func (h *Hub) Fail(round *Round) {
	h.mutex.Lock()
	defer h.mutex.Unlock()
	for _, l := range round.joined {
		if l.stage == joining {
			l.stage = waiting
		}
	}
	round.close()
}

// Tell tells what changed up to the serial of a round, to all who listened before; for those who joined at it
// everything begins there. Without notices they are told to read anew.
func (h *Hub) Tell(round *Round, serial uint64, notices []byte) {
	h.mutex.Lock()
	defer h.mutex.Unlock()
	defer round.close()
	if round.All && serial != h.serial {
		event := Event{Kind: Told, Serial: serial, Data: notices}
		if notices == nil {
			event.Kind = Anew
		}
		for l := range h.listeners {
			if l.stage == listening {
				h.give(l, event)
			}
		}
	}
	h.serial = serial
	for _, l := range round.joined {
		if _, there := h.listeners[l]; !there || l.stage != joining {
			continue
		}
		l.stage = listening
		event := Event{Kind: From}
		if l.back && l.heard != serial {
			event = *round.Back[l.heard]
		}
		event.Serial = serial
		h.give(l, event)
	}
}

// close gives back what the round's events have.
func (r *Round) close() {
	for _, event := range r.Back {
		if event.Rest != nil {
			event.Rest.Close()
		}
	}
}

// give puts an event where a listener finds it, or lets go a listener who doesn't read.
func (h *Hub) give(l *Listener, event Event) {
	if l.bytes > 0 && l.bytes+len(event.Data) > WaitingBytes {
		h.drop(l)
		return
	}
	if event.Rest != nil {
		event.Rest.Share()
	}
	select {
	case l.events <- event:
		l.bytes += len(event.Data)
	default:
		if event.Rest != nil {
			event.Rest.Close()
		}
		h.drop(l)
	}
}

// Close lets all go.
func (h *Hub) Close() {
	h.mutex.Lock()
	defer h.mutex.Unlock()
	h.closed = true
	for l := range h.listeners {
		h.drop(l)
	}
}
