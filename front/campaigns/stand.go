package campaigns

import (
	"time"

	"review-front/changed"
)

// State is what is so of an item.
type State byte

// The states of an item.
const (
	StateOpen    State = iota // to be signed
	StateFell                 // it was signed, and an edit ended that
	StateKept                 // it may stay
	StateRevoke               // it is to go, and is there
	StateRevoked              // it is to go, and is no Permit any more
	StateGone                 // its answer isn't one of the scope any more, and nothing is to be signed
	states
)

// words has the words of states.
var words = [states]string{"open", "fell", "kept", "revoke", "revoked", "gone"}

func (s State) String() string { return words[s] }

// ReadState is the state of a word.
func ReadState(word string) (State, bool) {
	for i, known := range words {
		if known == word {
			return State(i), true
		}
	}
	return 0, false
}

// Edit is an edit that did something to items of a campaign.
type Edit struct {
	Serial uint64    `json:"serial"`
	Time   time.Time `json:"time"`
	By     string    `json:"by"`
	Kind   string    `json:"kind"`
	Entity string    `json:"entity"`
	// Unknown says that nobody knows which answers it changed, so that no sign-off of before counts.
	Unknown bool `json:"unknown,omitempty"`
	fell    int  // how many sign-offs it ended
}

// standing is what is so of a campaign's items, as far as it is known what edits changed.
type standing struct {
	begun   bool
	state   []item
	answers []*Answer
	index   map[string]uint32
	edits   []*Edit
	signed  []*Sign
	falls   []Fall
	events  []Event
}

// Sign is a sign-off of items.
type Sign struct {
	*Record
	From string // of which campaign it was taken over, or nothing
}

// Fall is that an edit ended the sign-off of an item, and which answer that was of.
type Fall struct{ Item, Sign, Edit, Answer uint32 }

// item is what is so of one: numbers of others are their places and 1, so that 0 is none.
type item struct {
	state    State
	decision changed.Decision // as it is now
	last     Last
	stale    bool   // whether the answer may be another one by now
	answer   uint32 // the last one that is known
	seen     uint32 // that which was signed
	sign     uint32 // the sign-off, also one that doesn't stand any more
	by       uint32 // the edit that ended it, or by which what was to be revoked went
	changed  uint32 // the last edit that changed the answer
}

// Last says what became of the sign-off of the campaign before.
type Last byte

// What may have become of it.
const (
	LastNone    Last = iota // there was no campaign before
	LastNew                 // the cell was none of its items
	LastOpen                // nobody had signed
	LastFell                // it fell
	LastOld                 // it is older than may be
	LastChanged             // it stood by its decision, and the answer is another one
	LastStands              // it was taken over
	lasts
)

// lastWords has the words of these.
var lastWords = [lasts]string{"", "new", "not signed", "fell", "too old", "another answer", "stands"}

func (l Last) String() string { return lastWords[l] }

// start begins to follow a campaign.
func (c *Campaign) start(before *Campaign) {
	c.begun, c.answers, c.index = true, append([]*Answer(nil), c.items.Answers...), map[string]uint32{}
	decisions := make([]changed.Decision, len(c.answers))
	for i, one := range c.answers {
		c.index[one.text()] = uint32(i + 1)
		decisions[i], _ = changed.ReadDecision(one.decision())
	}
	c.state = make([]item, len(c.items.Cells))
	for i, cell := range c.items.Cells {
		c.state[i] = item{answer: cell.Answer + 1, decision: decisions[cell.Answer]}
	}
	if before != nil {
		c.takeOver(before)
	}
}

// takeOver takes over the sign-offs of another campaign that stand.
func (c *Campaign) takeOver(before *Campaign) {
	signs := map[uint32]uint32{}
	oldest, bounded := c.oldest(c.Time)
	for i := range c.state {
		number, there := before.items.Find(c.items.Cell(uint32(i)))
		if !there {
			c.state[i].last = LastNew
			continue
		}
		old := before.state[number]
		c.state[i].last = c.lastOf(before, old, c.state[i], oldest, bounded)
		if c.state[i].last != LastStands {
			continue
		}
		sign, taken := signs[old.sign]
		if !taken {
			one := *before.signed[old.sign-1]
			if one.From == "" {
				one.From = before.Name
			}
			c.signed = append(c.signed, &one)
			sign = uint32(len(c.signed))
			signs[old.sign] = sign
		}
		c.state[i].state, c.state[i].sign = old.state, sign
		c.state[i].seen = c.interned(before.answers[old.seen-1])
	}
}

// lastOf says what became of a sign-off of the campaign before.
func (c *Campaign) lastOf(before *Campaign, old, now item, oldest time.Time, bounded bool) Last {
	stands := old.state == StateKept || old.state == StateRevoke
	switch {
	case !stands && old.sign != 0:
		return LastFell
	case !stands:
		return LastOpen
	case bounded && before.signed[old.sign-1].Time.Before(oldest):
		return LastOld
	case c.On == OnAnswer && before.answers[old.seen-1].text() != c.answers[now.answer-1].text():
		return LastChanged
	}
	return LastStands
}

// interned is the number of an answer.
func (c *Campaign) interned(a *Answer) uint32 {
	text := a.text()
	at, there := c.index[text]
	if !there {
		c.answers = append(c.answers, a)
		at = uint32(len(c.answers))
		c.index[text] = at
	}
	return at
}

// covers says whether a decision is one of the scope.
func (c *Campaign) covers(d changed.Decision) bool {
	for _, one := range c.Scope.Decisions {
		if d != changed.None && one == d.String() {
			return true
		}
	}
	return false
}

// unsigned is the state of an item that has no sign-off which stands.
func (c *Campaign) unsigned(i *item) State {
	switch {
	case !c.covers(i.decision):
		return StateGone
	case i.sign != 0:
		return StateFell
	}
	return StateOpen
}

// follow has a record count among edits.
func (c *Campaign) follow(r *Record) {
	switch r.Do {
	case Keep, Revoke:
		c.signed = append(c.signed, &Sign{Record: r})
	}
	for at, number := range r.Items {
		i := &c.state[number]
		switch r.Do {
		case Keep, Revoke:
			answer, err := r.answer(at)
			if err != nil {
				continue
			}
			i.state, i.sign, i.by = StateKept, uint32(len(c.signed)), 0
			if r.Do == Revoke {
				i.state = StateRevoke
			}
			i.seen = c.interned(answer)
			i.answer, i.stale = i.seen, false
			i.decision, _ = changed.ReadDecision(answer.decision())
		case Undo:
			i.sign, i.seen, i.by = 0, 0, 0
			i.state = c.unsigned(i)
		}
	}
}

// change has an edit count that gave an item another answer.
func (c *Campaign) change(number uint32, before, after changed.Decision, edit func() uint32) {
	i := &c.state[number]
	i.decision, i.stale, i.changed = after, true, edit()
	switch {
	case i.state == StateKept && (c.On == OnAnswer || before != after), i.state == StateRevoked && after == changed.Permit:
		c.fall(number)
	case i.state == StateRevoke && after != changed.Permit:
		i.state, i.by = StateRevoked, i.changed
	case i.state == StateOpen || i.state == StateFell || i.state == StateGone:
		i.state = c.unsigned(i)
	}
}

// fall ends the sign-off of an item by the edit that changed it last.
func (c *Campaign) fall(number uint32) {
	i := &c.state[number]
	i.by = i.changed
	i.state = c.unsigned(i)
	c.edits[i.by-1].fell++
	c.falls = append(c.falls, Fall{Item: number, Sign: i.sign - 1, Edit: i.by - 1, Answer: i.seen - 1})
}

// Edited has an edit count, or a record whose turn it is.
func (t *Table) Edited(e *changed.Edit) error {
	t.mutex.Lock()
	defer t.mutex.Unlock()
	if e.Serial < t.upTo {
		return nil
	}
	t.followed(e.Serial)
	for _, c := range t.all {
		if !c.begun || c.Serial >= e.Serial {
			continue
		}
		if err := c.edited(e); err != nil {
			return err
		}
	}
	t.upTo = e.Serial
	return nil
}

// edited has an edit count for a campaign.
func (c *Campaign) edited(e *changed.Edit) error {
	known := len(c.edits)
	edit := func() uint32 {
		if len(c.edits) == known {
			c.edits = append(c.edits, &Edit{Serial: e.Serial, Time: e.Time, By: e.By, Kind: e.Do, Entity: e.Entity})
		}
		return uint32(len(c.edits))
	}
	if !e.Known {
		c.lost(edit)
		return nil
	}
	if e.Count == 0 {
		return nil
	}
	err := e.Each(func(one changed.Change) error {
		number, there := c.items.Find(Cell{Person: one.Person, Action: one.Action, Resource: one.Resource})
		if there {
			c.change(number, one.Before, one.After, edit)
		}
		return nil
	})
	if err == nil && len(c.edits) > known {
		c.tellFell()
	}
	return err
}

// lost has an edit count of which nobody knows what it changed.
func (c *Campaign) lost(edit func() uint32) {
	at := edit()
	c.edits[at-1].Unknown = true
	for number := range c.state {
		i := &c.state[number]
		i.stale, i.changed = true, at
		if i.state == StateKept || i.state == StateRevoked {
			c.fall(uint32(number))
		}
	}
	c.tellFell()
}

// Unknown says that nobody knows what edits up to a serial changed.
func (t *Table) Unknown(until uint64) {
	t.mutex.Lock()
	defer t.mutex.Unlock()
	t.followed(until)
	for _, c := range t.all {
		if c.begun && c.Serial < until {
			c.lost(func() uint32 {
				c.edits = append(c.edits, &Edit{Serial: until})
				return uint32(len(c.edits))
			})
		}
	}
	t.upTo = until
}

// followed has the records count whose turn it is: those up to a serial.
func (t *Table) followed(serial uint64) {
	for len(t.due) > 0 && t.due[0].Serial <= serial {
		r := t.due[0]
		t.due = t.due[1:]
		c := t.named[r.Campaign]
		if r.Do == Open {
			c.start(t.named[c.After])
		} else {
			c.follow(r)
		}
		c.tell(r)
	}
}

// Reached says up to which serial it is known which sign-offs stand.
func (t *Table) Reached(serial uint64) {
	t.mutex.Lock()
	defer t.mutex.Unlock()
	t.followed(serial)
	if serial > t.upTo {
		t.upTo = serial
	}
	close(t.moved)
	t.moved = make(chan struct{})
}

// UpTo is that serial, with what is closed once it is another.
func (t *Table) UpTo() (uint64, <-chan struct{}) {
	t.mutex.Lock()
	defer t.mutex.Unlock()
	return t.upTo, t.moved
}
