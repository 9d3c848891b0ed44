package scim

import (
	"bytes"
	"fmt"
	"net/http"
	"sort"
	"sync"
	"time"
)

// Table has all resources of a journal, as they are behind its last record.
type Table struct {
	mutex  sync.RWMutex
	all    map[string]*Resource
	kinds  map[string][]*Resource // by kind, in the order in which they were made
	names  map[string]string      // the id of the user of a name
	groups map[string]*memberSet  // by the id of a group
	in     map[string]map[string]bool
	last   uint64 // the serial of the last record
	held   *Held
	gone   []time.Time // when people went, as far as it counts
	free   time.Time   // up to when as many may go as there are, since somebody let it on
	// touched has the users whose rows may be others than they were, until somebody takes them.
	touched map[string]Touch
	moved   chan struct{}
	front   string // this one, of several
}

// Touch says of which record a user was touched last.
type Touch struct {
	Serial  uint64
	By      string
	Foreign bool // another front made it
}

// Held says since when provisioning is held.
type Held struct {
	Serial uint64    `json:"serial"`
	Time   time.Time `json:"time"`
	By     string    `json:"by,omitempty"`
	Why    string    `json:"why"`
}

// NewTable makes a table without resources, of a front.
func NewTable(front string) *Table {
	t := &Table{front: front, moved: make(chan struct{}, 1)}
	t.clear()
	return t
}

func (t *Table) clear() {
	t.all, t.kinds, t.names = map[string]*Resource{}, map[string][]*Resource{}, map[string]string{}
	t.groups, t.in = map[string]*memberSet{}, map[string]map[string]bool{}
	t.last, t.held, t.gone, t.free, t.touched = 0, nil, nil, time.Time{}, map[string]Touch{}
}

// Front is the front that it is of.
func (t *Table) Front() string { return t.front }

// Last is the serial of the last record.
func (t *Table) Last() uint64 {
	t.mutex.RLock()
	defer t.mutex.RUnlock()
	return t.last
}

// Find is the resource of an id, of a kind if one is named, or nil.
func (t *Table) Find(kind, id string) *Resource {
	t.mutex.RLock()
	defer t.mutex.RUnlock()
	if r := t.all[id]; r != nil && (kind == "" || r.Kind == kind) {
		return r
	}
	return nil
}

// Named is the user of a name, which is in small letters, or nil.
func (t *Table) Named(name string) *Resource {
	t.mutex.RLock()
	defer t.mutex.RUnlock()
	return t.all[t.names[name]]
}

// List are the resources of a kind, in the order in which they were made.
func (t *Table) List(kind string) []*Resource {
	t.mutex.RLock()
	defer t.mutex.RUnlock()
	return append([]*Resource(nil), t.kinds[kind]...)
}

// Count is how many there are of a kind.
func (t *Table) Count(kind string) int {
	t.mutex.RLock()
	defer t.mutex.RUnlock()
	return len(t.kinds[kind])
}

// View is a resource with what isn't its own, at an address.
func (t *Table) View(kinds *Kinds, r *Resource, base string) View {
	return View{Resource: r, kind: kinds.Of(r.Kind), table: t, base: base}
}

// Judge says why a record isn't taken at its place, if it isn't.
func (t *Table) Judge(r *Record) error {
	t.mutex.RLock()
	defer t.mutex.RUnlock()
	if err := t.judge(r); err != nil {
		return err
	}
	return nil
}

func (t *Table) judge(r *Record) *Error {
	switch r.Do {
	case Hold:
		if t.held != nil {
			return &Error{Status: http.StatusConflict, Detail: "provisioning is held already"}
		}
		return nil
	case LetOn:
		if t.held == nil {
			return &Error{Status: http.StatusNotFound, Detail: "provisioning isn't held"}
		}
		return nil
	}
	if t.held != nil {
		return &Error{
			Status: http.StatusServiceUnavailable, Held: true, Detail: "provisioning is held: " + t.held.Why,
		}
	}
	there := t.all[r.ID]
	switch {
	case r.Do == Create && there != nil:
		return &Error{Status: http.StatusConflict, Type: Uniqueness, Detail: "there is a resource with that id"}
	case r.Do == Create:
	case there == nil || there.Kind != r.Kind:
		return Missing(r.Kind, r.ID)
	case there.Serial != r.Of:
		return &Error{Status: http.StatusPreconditionFailed, Moved: true, Detail: "the resource was changed meanwhile"}
	}
	if id := t.names[r.Key]; r.Kind == "User" && r.Do != Delete && id != "" && id != r.ID {
		return &Error{
			Status: http.StatusConflict, Type: Uniqueness,
			Detail: fmt.Sprintf("there is a user %.200q, in whatever case", r.Key),
		}
	}
	return t.exceeds(r, there)
}

// leaves says whether somebody goes from the table by a record.
func leaves(r *Record, there *Resource) bool {
	return r.Kind == "User" && there != nil && there.Active && (r.Do == Delete || !r.Active)
}

// counted are the times that count within a while before one.
func counted(gone []time.Time, at time.Time, within int) []time.Time {
	from := at.Add(-time.Duration(within) * time.Second)
	for len(gone) > 0 && !gone[0].After(from) {
		gone = gone[1:]
	}
	return gone
}

// exceeds says why a record isn't taken by which more people would go within a while than may.
func (t *Table) exceeds(r *Record, there *Resource) *Error {
	if r.Most == nil || !leaves(r, there) || r.Time.Before(t.free) {
		return nil
	}
	count := len(counted(t.gone, r.Time, r.Within)) + 1
	people := t.active() + count - 1
	if float64(count)*100 <= *r.Most*float64(people) {
		return nil
	}
	return &Error{
		Status: http.StatusServiceUnavailable, Held: true, Excess: true,
		Detail: fmt.Sprintf("%d of %d people would have gone within %s, which is more than %v%%", count, people,
			time.Duration(r.Within)*time.Second, *r.Most),
	}
}

// active is how many users' accounts are in use.
func (t *Table) active() int {
	count := 0
	for _, one := range t.kinds["User"] {
		if one.Active {
			count++
		}
	}
	return count
}

// Apply takes a record that was judged, or stands in the journal.
func (t *Table) Apply(r *Record) error {
	t.mutex.Lock()
	defer t.mutex.Unlock()
	if r.Serial <= t.last {
		return nil
	}
	there := t.all[r.ID]
	switch r.Do {
	case Hold:
		t.held = &Held{Serial: r.Serial, Time: r.Time, By: r.By, Why: r.Why}
	case LetOn:
		t.held, t.gone, t.free = nil, nil, r.Time.Add(time.Duration(r.Within)*time.Second)
	case Create, Write, Delete:
		if (there == nil) != (r.Do == Create) {
			return fmt.Errorf("serial %d is of a resource %q that can't be changed so", r.Serial, r.ID)
		}
		if leaves(r, there) {
			t.gone = append(counted(t.gone, r.Time, r.Within), r.Time)
		}
		t.change(r, there)
	default:
		return fmt.Errorf("serial %d has the unknown command %q", r.Serial, r.Do)
	}
	t.last = r.Serial
	select {
	case t.moved <- struct{}{}:
	default:
	}
	return nil
}

// change makes, changes or takes away a resource.
func (t *Table) change(r *Record, there *Resource) {
	if there != nil && there.Kind == "User" {
		delete(t.names, there.Key)
	}
	if r.Do == Delete {
		t.touch(r, r.ID)
		t.remove(r, there)
		return
	}
	one := &Resource{
		Kind: r.Kind, ID: r.ID, Born: r.Serial, Serial: r.Serial, Created: r.Time, Modified: r.Time, Key: r.Key,
		Active: r.Active, raw: r.Resource,
	}
	if there != nil {
		one.Born, one.Created = there.Born, there.Created
	}
	t.put(one)
	if r.Kind == "Group" {
		t.members(r)
	}
	if r.Kind == "User" || there != nil && !bytes.Equal(there.raw, r.Resource) {
		t.touch(r, r.ID)
	}
}

// put puts a resource there, or in the place of the one before.
func (t *Table) put(one *Resource) {
	t.all[one.ID] = one
	if one.Kind == "User" {
		t.names[one.Key] = one.ID
	}
	all := t.kinds[one.Kind]
	at := sort.Search(len(all), func(i int) bool { return all[i].Born >= one.Born })
	if at < len(all) && all[at].Born == one.Born {
		all[at] = one
		return
	}
	t.kinds[one.Kind] = append(all, one)
}

// remove takes a resource away, also out of the groups that it is in.
func (t *Table) remove(r *Record, there *Resource) {
	delete(t.all, there.ID)
	all := t.kinds[there.Kind]
	at := sort.Search(len(all), func(i int) bool { return all[i].Born >= there.Born })
	t.kinds[there.Kind] = append(all[:at:at], all[at+1:]...)
	for group := range t.in[there.ID] {
		t.groups[group].drop(there.ID)
		t.again(t.all[group], r)
	}
	delete(t.in, there.ID)
	if set := t.groups[there.ID]; set != nil {
		for _, member := range set.list() {
			t.leave(member, there.ID)
		}
		delete(t.groups, there.ID)
	}
}

// again has a resource be another one by a record, but for what clients set of it.
func (t *Table) again(there *Resource, r *Record) {
	one := &Resource{
		Kind: there.Kind, ID: there.ID, Born: there.Born, Serial: r.Serial, Created: there.Created, Modified: r.Time,
		Key: there.Key, Active: there.Active, raw: there.raw,
	}
	t.put(one)
}

// Holding is what is so of provisioning: since when it is held, up to when as many may go as there are, and how many
// people went within a while, of how many.
type Holding struct {
	Held   *Held      `json:"held"`
	Free   *time.Time `json:"free_until,omitempty"`
	Gone   int        `json:"gone"`
	People int        `json:"people"`
}

// Holding says what is so of provisioning at a time.
func (t *Table) Holding(at time.Time, within int) Holding {
	t.mutex.RLock()
	defer t.mutex.RUnlock()
	h := Holding{Held: t.held, Gone: len(counted(t.gone, at, within))}
	h.People = t.active() + h.Gone
	if free := t.free; at.Before(free) {
		h.Free = &free
	}
	return h
}
