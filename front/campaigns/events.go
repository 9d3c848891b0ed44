package campaigns

import (
	"encoding/json"
	"time"
)

// Event is something that happened to a campaign.
type Event struct {
	Kind     string    `json:"event"`
	Campaign string    `json:"campaign"`
	Serial   uint64    `json:"serial"`
	Time     time.Time `json:"time"`
	By       string    `json:"by"`
	Items    int       `json:"items,omitempty"` // how many it is about
	To       string    `json:"to,omitempty"`
	Why      string    `json:"why,omitempty"`
	Day      string    `json:"day,omitempty"`
	Edit     *Edit     `json:"edit,omitempty"`
	// Open is, of a reminder, how many items each reviewer has to sign.
	Open map[string]int `json:"open,omitempty"`
}

// kinds has the words of events by the commands of their records.
var kinds = map[string]string{
	Open: "opened", Close: "ended", Keep: "kept", Revoke: "revoke", Pass: "passed", Undo: "undone", Remind: "reminder",
}

// tell tells of a record.
func (c *Campaign) tell(r *Record) {
	e := Event{
		Kind: kinds[r.Do], Campaign: c.Name, Serial: r.Serial, Time: r.Time, By: r.By, Items: len(r.Items), To: r.To,
		Why: r.Why, Day: r.Day,
	}
	if r.Do == Open {
		e.Items = len(c.state)
	}
	if r.Do == Remind || r.Do == Open {
		e.Open = c.open()
	}
	c.events = append(c.events, e)
}

// open is how many items each reviewer has to sign.
func (c *Campaign) open() map[string]int {
	open := map[string]int{}
	for number := range c.state {
		if state := c.state[number].state; state == StateOpen || state == StateFell {
			open[c.names[c.reviewers[number]]]++
		}
	}
	return open
}

// tellFell tells of the last edit, if it ended sign-offs.
func (c *Campaign) tellFell() {
	edit := c.edits[len(c.edits)-1]
	if edit.fell == 0 {
		return
	}
	c.events = append(c.events, Event{
		Kind: "fell", Campaign: c.Name, Serial: edit.Serial, Time: edit.Time, By: edit.By, Items: edit.fell, Edit: edit,
	})
}

// Events are those of a campaign behind a serial, and what is closed once there may be more.
func (t *Table) Events(name string, since uint64) ([]Event, <-chan struct{}, error) {
	t.mutex.Lock()
	defer t.mutex.Unlock()
	c := t.named[name]
	if c == nil {
		return nil, nil, t.unknown(name)
	}
	first := len(c.events)
	for first > 0 && c.events[first-1].Serial > since {
		first--
	}
	return append([]Event(nil), c.events[first:]...), t.moved, nil
}

// Line is an event as a line of JSON.
func (e Event) Line() []byte {
	written, err := json.Marshal(e)
	if err != nil {
		return []byte("{}")
	}
	return written
}
