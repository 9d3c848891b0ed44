// Package sessions says who marked the table, and at which serial. A mark is no more than that: the program isn't asked
// to keep it, and there may be any number.
package sessions

import (
	"context"
	"errors"
	"sync"
)

// The reasons why a client has no session.
var (
	ErrTaken = errors.New("all sessions are taken")
	ErrGone  = errors.New("the session has ended")
)

// Table has all clients' marks.
type Table struct {
	mutex sync.Mutex
	most  int
	held  map[*Session]struct{}
	back  map[string]*Client // who was there before a start, and hasn't been asked for since
	order *order             // the serials of marks
}

// NewTable is a table without a mark, which has so many marks, and sessions that may mark, at most.
func NewTable(most int) *Table {
	return &Table{most: most, held: map[*Session]struct{}{}, back: map[string]*Client{}, order: newOrder()}
}

// Client is somebody whose lines name sessions by numbers of his own.
type Client struct {
	table *Table
	name  string // of one who stays over a start of the front
	own   map[int]*Session
	gone  bool
}

// Session is a number of a client, at which he marked or may mark.
type Session struct {
	client *Client
	number int
	marked bool
	at     uint64 // the serial of the mark
	marks  int    // marks that have no reply yet
	moved  chan struct{}
}

// NewClient is a client who goes with his connection, without any session.
func (t *Table) NewClient() *Client { return t.NewNamed("") }

// NewNamed is a client who stays, known by a name.
func (t *Table) NewNamed(name string) *Client {
	return &Client{table: t, name: name, own: map[int]*Session{}}
}

// Restore has the clients of before a start, with their marks by number.
func (t *Table) Restore(clients map[string]map[int]uint64) {
	for name, marks := range clients {
		client := t.NewNamed(name)
		_, _ = client.Take(0) // where there are too many, he has none before others go
		for number, at := range marks {
			if session, err := client.Marking(number); err == nil {
				session.Settled(at, true)
			}
		}
		t.mutex.Lock()
		t.back[name] = client
		t.mutex.Unlock()
	}
}

// Restored gives the clients of before a start, once.
func (t *Table) Restored() map[string]*Client {
	t.mutex.Lock()
	defer t.mutex.Unlock()
	if len(t.back) == 0 {
		return nil
	}
	back := t.back
	t.back = map[string]*Client{}
	return back
}

// Taken is how many marks, and sessions that may mark, clients have.
func (t *Table) Taken() int {
	t.mutex.Lock()
	defer t.mutex.Unlock()
	return len(t.held)
}

// Oldest is the serial of the oldest mark that isn't older than `from`, or else a given one. What is asked for once goes
// on from there.
func (t *Table) Oldest(from, otherwise uint64) uint64 {
	t.mutex.Lock()
	defer t.mutex.Unlock()
	if from < t.order.from {
		t.order = newOrder() // some may be missing there
		for session := range t.held {
			if session.marked {
				t.order.add(session.at)
			}
		}
	}
	if oldest := t.order.oldest(from); oldest < otherwise {
		return oldest
	}
	return otherwise
}

// Take gets a session for a number of the client, if he has none.
func (c *Client) Take(number int) (*Session, error) {
	c.table.mutex.Lock()
	defer c.table.mutex.Unlock()
	return c.take(number)
}

func (c *Client) take(number int) (*Session, error) {
	if session := c.own[number]; session != nil {
		return session, nil
	}
	if c.gone {
		return nil, ErrGone
	}
	if len(c.table.held) >= c.table.most {
		return nil, ErrTaken
	}
	session := &Session{client: c, number: number, moved: make(chan struct{})}
	c.own[number] = session
	c.table.held[session] = struct{}{}
	return session, nil
}

// Marking is the session for a mark at a number of the client, of which a mark is on its way.
func (c *Client) Marking(number int) (*Session, error) {
	c.table.mutex.Lock()
	defer c.table.mutex.Unlock()
	session, err := c.take(number)
	if err == nil {
		session.marks++
	}
	return session, err
}

// Noticing is the session for notices at a number of the client, or nil where he has none.
func (c *Client) Noticing(number int) *Session {
	c.table.mutex.Lock()
	defer c.table.mutex.Unlock()
	return c.own[number]
}

// Close ends the sessions of a client.
func (c *Client) Close() {
	c.table.mutex.Lock()
	defer c.table.mutex.Unlock()
	c.gone = true
	for number, session := range c.own {
		if session.marked {
			c.table.order.drop(session.at)
		}
		delete(c.own, number)
		delete(c.table.held, session)
	}
}

// Stays says by which name a session that stays over a start of the front is known, and by which number. It is false
// for any other, and for one that has ended.
func (s *Session) Stays() (name string, number int, ok bool) {
	s.client.table.mutex.Lock()
	defer s.client.table.mutex.Unlock()
	return s.client.name, s.number, s.client.name != "" && !s.client.gone
}

// Settled says that a mark has its reply, a serial or none, or gets none.
func (s *Session) Settled(at uint64, marked bool) {
	s.client.table.mutex.Lock()
	defer s.client.table.mutex.Unlock()
	s.marks--
	if marked {
		if _, held := s.client.table.held[s]; held {
			s.client.table.order.move(s, at)
		}
		s.marked, s.at = true, at
	}
	if s.marks == 0 {
		close(s.moved)
		s.moved = make(chan struct{})
	}
}

// At is the serial of the mark, once all that are on their way have their replies. It is false where there is none.
func (s *Session) At(ctx context.Context) (at uint64, marked bool, err error) {
	for {
		s.client.table.mutex.Lock()
		at, marked := s.at, s.marked
		due, moved := s.marks, s.moved
		s.client.table.mutex.Unlock()
		if due == 0 {
			return at, marked, nil
		}
		select {
		case <-moved:
		case <-ctx.Done():
			return 0, false, ctx.Err()
		}
	}
}
