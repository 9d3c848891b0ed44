package sessions

import (
	"container/list"
	"crypto/rand"
	"encoding/hex"
	"fmt"
	"sync"
	"time"
)

// Leases are clients that stay from one request to the next, each known by a word that nobody can guess.
type Leases struct {
	table *Table
	idle  time.Duration
	kept  Memory
	mutex sync.Mutex
	held  map[string]*lease
	idles *list.List // the leases that nobody uses, in the order in which that began
}

type lease struct {
	name   string
	client *Client
	users  int
	used   time.Time
	place  *list.Element // among those that nobody uses; nil while somebody does
}

// Memory is told who comes and goes.
type Memory interface {
	Remember(name string)
	Forget(name string)
}

// NewLeases are leases that end when nobody used them for a while.
func NewLeases(table *Table, idle time.Duration, kept Memory) *Leases {
	return &Leases{table: table, idle: idle, kept: kept, held: map[string]*lease{}, idles: list.New()}
}

// Open begins a lease with a session for number 0, and gives its name.
func (l *Leases) Open() (string, error) {
	var word [16]byte
	if _, err := rand.Read(word[:]); err != nil {
		return "", fmt.Errorf("a word for a session: %w", err)
	}
	l.mutex.Lock()
	defer l.mutex.Unlock()
	l.sweep(time.Now())
	name := hex.EncodeToString(word[:])
	client := l.table.NewNamed(name)
	if _, err := client.Take(0); err != nil {
		return "", err
	}
	l.hold(name, client, time.Now())
	l.kept.Remember(name)
	return name, nil
}

// Use is the client of a lease, which doesn't end before `done` is called.
func (l *Leases) Use(name string) (client *Client, done func(), ok bool) {
	l.mutex.Lock()
	defer l.mutex.Unlock()
	l.sweep(time.Now())
	held := l.held[name]
	if held == nil {
		return nil, nil, false
	}
	if held.users++; held.place != nil {
		l.idles.Remove(held.place)
		held.place = nil
	}
	return held.client, func() { l.leave(held) }, true
}

// leave says that somebody doesn't use a lease any more.
func (l *Leases) leave(held *lease) {
	l.mutex.Lock()
	defer l.mutex.Unlock()
	if held.users--; held.users == 0 && l.held[held.name] == held {
		l.rest(held, time.Now())
	}
}

// hold has a lease that nobody uses.
func (l *Leases) hold(name string, client *Client, now time.Time) {
	held := &lease{name: name, client: client}
	l.held[name] = held
	l.rest(held, now)
}

// rest says from when on nobody uses a lease.
func (l *Leases) rest(held *lease, now time.Time) {
	held.used = now
	held.place = l.idles.PushBack(held)
}

// End ends a lease, and is false where there is none of that name.
func (l *Leases) End(name string) bool {
	l.mutex.Lock()
	defer l.mutex.Unlock()
	l.sweep(time.Now())
	held := l.held[name]
	if held == nil {
		return false
	}
	l.end(held)
	return true
}

// Sweep ends the leases that nobody used for a while.
func (l *Leases) Sweep() {
	l.mutex.Lock()
	defer l.mutex.Unlock()
	l.sweep(time.Now())
}

// sweep takes over the clients of before a start, for whom time begins anew, and ends leases: it looks at those alone
// that it ends.
func (l *Leases) sweep(now time.Time) {
	for name, client := range l.table.Restored() {
		l.hold(name, client, now)
	}
	for first := l.idles.Front(); first != nil; first = l.idles.Front() {
		held := first.Value.(*lease)
		if now.Sub(held.used) <= l.idle {
			return
		}
		l.end(held)
	}
}

func (l *Leases) end(held *lease) {
	if held.place != nil {
		l.idles.Remove(held.place)
		held.place = nil
	}
	delete(l.held, held.name)
	held.client.Close()
	l.kept.Forget(held.name)
}
