package campaigns

import "time"

// Progress is what is so of a campaign as a whole.
type Progress struct {
	Campaign  *Definition               `json:"campaign"`
	Serial    uint64                    `json:"serial"` // that of its record
	Time      time.Time                 `json:"time"`
	By        string                    `json:"by"`
	UpTo      uint64                    `json:"up_to"` // the serial as of which this is told
	Ended     *Ended                    `json:"ended,omitempty"`
	Items     int                       `json:"items"`
	States    map[string]int            `json:"states"`
	Reviewers map[string]map[string]int `json:"reviewers"` // of each what is open, and what fell
	// Taken is how many sign-offs were taken over from the campaign before, and Asked why others weren't.
	Taken int            `json:"taken,omitempty"`
	Asked map[string]int `json:"asked,omitempty"`
	Fell  []Felled       `json:"fell"` // the last edits that ended sign-offs, newest first
	More  bool           `json:"more"` // whether there are more of these
}

// Ended says who ended a campaign, and when.
type Ended struct {
	Serial uint64    `json:"serial"`
	Time   time.Time `json:"time"`
	By     string    `json:"by"`
}

// Felled is an edit, and how many sign-offs it ended.
type Felled struct {
	*Edit
	Items int `json:"items"`
}

// mostFelled is how many edits are told.
const mostFelled = 100

// Progress tells what is so of a campaign.
func (t *Table) Progress(name string) (*Progress, error) {
	t.mutex.Lock()
	defer t.mutex.Unlock()
	c := t.named[name]
	if c == nil || !c.begun {
		return nil, t.unknown(name)
	}
	return c.progress(t.upTo), nil
}

// All tells what is so of all campaigns, in the order in which they were opened.
func (t *Table) All() []*Progress {
	t.mutex.Lock()
	defer t.mutex.Unlock()
	all := []*Progress{}
	for _, c := range t.all {
		if c.begun {
			all = append(all, c.progress(t.upTo))
		}
	}
	return all
}

func (c *Campaign) progress(upTo uint64) *Progress {
	p := &Progress{
		Campaign: c.Definition, Serial: c.Serial, Time: c.Time, By: c.By, UpTo: upTo, Items: len(c.state),
		States: map[string]int{}, Reviewers: map[string]map[string]int{}, Fell: []Felled{},
	}
	if c.closed != nil {
		p.Ended = &Ended{Serial: c.closed.Serial, Time: c.closed.Time, By: c.closed.By}
	}
	var counts [states]int
	var asked [lasts]int
	open := make([][2]int, len(c.names))
	for number := range c.state {
		i := &c.state[number]
		counts[i.state]++
		asked[i.last]++
		if i.state == StateOpen || i.state == StateFell {
			open[c.reviewers[number]][i.state]++
		}
	}
	for state, count := range counts {
		p.States[State(state).String()] = count
	}
	for at, of := range open {
		if of[0]+of[1] > 0 {
			p.Reviewers[c.names[at]] = map[string]int{"open": of[0], "fell": of[1]}
		}
	}
	if c.After != "" {
		p.Taken, p.Asked = asked[LastStands], map[string]int{}
		for last, count := range asked {
			if count > 0 && Last(last) != LastStands {
				p.Asked[Last(last).String()] = count
			}
		}
	}
	for at := len(c.edits) - 1; at >= 0; at-- {
		if c.edits[at].fell == 0 {
			continue
		}
		if len(p.Fell) == mostFelled {
			p.More = true
			break
		}
		p.Fell = append(p.Fell, Felled{Edit: c.edits[at], Items: c.edits[at].fell})
	}
	return p
}
