package campaigns

import (
	"sort"
	"time"
)

// Query says which items are asked for.
type Query struct {
	Reviewers []string // nothing: everybody's
	States    []State
	Item      *uint32 // nothing: all
	From      int
	Count     int // how many groups there are at most
}

// Group is items of one person that the same rules give, in one state.
type Group struct {
	Person   string `json:"person"`
	Why      raw    `json:"why"`
	State    string `json:"state"`
	Reviewer string `json:"reviewer"`
	// Digest is that of the answers, which an act has to say.
	Digest string `json:"digest"`
	Items  []Item `json:"items"`
	first  uint32
	key    groupKey
}

// raw is JSON as the program wrote it.
type raw []byte

// MarshalJSON gives it.
func (r raw) MarshalJSON() ([]byte, error) { return r, nil }

// Item is one item as it is told.
type Item struct {
	Item        uint32 `json:"item"`
	Action      string `json:"action"`
	Resource    string `json:"resource"`
	Decision    raw    `json:"decision"`
	Obligations raw    `json:"obligations,omitempty"`
	Advice      raw    `json:"advice,omitempty"`
	Signed      *Told  `json:"signed,omitempty"`
	// By is the edit that ended a sign-off, or by which what was to be revoked went, and Back says that its answer is
	// again what was signed.
	By      *Edit  `json:"by,omitempty"`
	Back    bool   `json:"back,omitempty"`
	Changed *Edit  `json:"changed,omitempty"` // the last edit that changed its answer
	Last    string `json:"last,omitempty"`    // what became of its sign-off in the campaign before
}

// Told is a sign-off as it is told.
type Told struct {
	As     string    `json:"as"` // keep or revoke
	By     string    `json:"by"`
	Time   time.Time `json:"time"`
	Serial uint64    `json:"serial"`
	Digest string    `json:"digest"`
	Why    string    `json:"why,omitempty"`
	From   string    `json:"from,omitempty"`
}

// Page is a part of the groups of a campaign.
type Page struct {
	Campaign string  `json:"campaign"`
	Groups   []Group `json:"groups"`
	More     bool    `json:"more"`
	Serial   uint64  `json:"serial"`
	// Called is what people are called, where that is known.
	Called map[string]string `json:"called,omitempty"`
	// Stale are items whose answers have to be asked again.
	Stale []uint32 `json:"-"`
}

// groupKey is what the items of a group have in common.
type groupKey struct {
	order, why, reviewer uint32
}

// orders says in which order states are told: what fell, and what is open, stand first.
var orders = [states]uint32{StateFell: 0, StateOpen: 1, StateRevoke: 2, StateKept: 3, StateRevoked: 4, StateGone: 5}

// found is a group and its items.
type found struct {
	person uint32
	key    groupKey
	state  State
	items  []uint32
}

// List tells items by groups. Where some of them are stale, they are to be asked again before it counts.
func (t *Table) List(name string, q Query) (*Page, error) {
	t.mutex.Lock()
	defer t.mutex.Unlock()
	c := t.named[name]
	if c == nil || !c.begun {
		return nil, t.unknown(name)
	}
	page := &Page{Campaign: name, Groups: []Group{}, Serial: t.upTo}
	groups := c.groups(q)
	if q.From > len(groups) {
		q.From = len(groups)
	}
	groups = groups[q.From:]
	if len(groups) > q.Count {
		groups, page.More = groups[:q.Count], true
	}
	for _, one := range groups {
		page.Groups = append(page.Groups, c.group(one, page))
	}
	return page, nil
}

// groups are the groups of a query, in the order in which they are told.
func (c *Campaign) groups(q Query) []*found {
	var wanted [states]bool
	for _, state := range q.States {
		wanted[state] = true
	}
	mine := make([]bool, len(c.names))
	for _, name := range q.Reviewers {
		if at, known := c.numbers[name]; known {
			mine[at] = true
		}
	}
	whys := map[string]uint32{}
	why := make([]uint32, len(c.answers))
	for i, one := range c.answers {
		at, there := whys[string(one.Why)]
		if !there {
			at = uint32(len(whys))
			whys[string(one.Why)] = at
		}
		why[i] = at
	}
	var all []*found
	var here map[groupKey]*found
	person := ^uint32(0)
	for number := range c.state {
		i := &c.state[number]
		if len(q.States) > 0 && !wanted[i.state] || len(q.Reviewers) > 0 && !mine[c.reviewers[number]] ||
			q.Item != nil && *q.Item != uint32(number) {
			continue
		}
		if at := c.items.Cells[number].Person; at != person || here == nil {
			person, here = at, map[groupKey]*found{}
		}
		key := groupKey{orders[i.state], why[i.answer-1], c.reviewers[number]}
		group := here[key]
		if group == nil {
			group = &found{person: person, key: key, state: i.state}
			here[key], all = group, append(all, group)
		}
		group.items = append(group.items, uint32(number))
	}
	sort.SliceStable(all, func(a, b int) bool {
		one, other := all[a].key, all[b].key
		if one.order != other.order {
			return one.order < other.order
		}
		return one.why < other.why
	})
	return all
}

// group tells a group.
func (c *Campaign) group(one *found, page *Page) Group {
	first := c.state[one.items[0]]
	told := Group{
		Person: Plain(c.items.People[one.person]), Why: raw(c.answers[first.answer-1].Why), State: one.state.String(),
		Reviewer: c.names[one.key.reviewer], first: one.items[0], key: one.key,
	}
	var cells []Cell
	var answers []*Answer
	for _, number := range one.items {
		i := &c.state[number]
		if i.stale {
			page.Stale = append(page.Stale, number)
		}
		cells, answers = append(cells, c.items.Cell(number)), append(answers, c.answers[i.answer-1])
		told.Items = append(told.Items, c.item(number))
	}
	told.Digest = Digest(cells, answers)
	return told
}

// item tells an item.
func (c *Campaign) item(number uint32) Item {
	i, cell := &c.state[number], c.items.Cell(number)
	answer := c.answers[i.answer-1]
	told := Item{
		Item: number, Action: Plain(cell.Action), Resource: Plain(cell.Resource), Decision: raw(answer.Decision),
		Last: i.last.String(),
	}
	if string(answer.Obligations) != "[]" {
		told.Obligations = raw(answer.Obligations)
	}
	if string(answer.Advice) != "[]" {
		told.Advice = raw(answer.Advice)
	}
	if i.sign != 0 {
		told.Signed = c.signed[i.sign-1].told()
	}
	if i.by != 0 {
		told.By = c.edits[i.by-1]
	}
	if i.changed != 0 {
		told.Changed = c.edits[i.changed-1]
	}
	told.Back = i.state == StateFell && i.by != 0 && c.isBack(i)
	return told
}

// isBack says whether the answer is again what was signed.
func (c *Campaign) isBack(i *item) bool {
	if c.On == OnDecision {
		return c.answers[i.seen-1].decision() == c.answers[i.answer-1].decision()
	}
	return i.seen == i.answer
}

// told is a sign-off as it is told.
func (s *Sign) told() *Told {
	as := "keep"
	if s.Do == Revoke {
		as = "revoke"
	}
	return &Told{As: as, By: s.By, Time: s.Time, Serial: s.Serial, Digest: s.Digest, Why: s.Why, From: s.From}
}

// Fresh takes answers that the program gave as of a serial.
func (t *Table) Fresh(name string, numbers []uint32, answers []*Answer, serial uint64) {
	t.mutex.Lock()
	defer t.mutex.Unlock()
	c := t.named[name]
	if c == nil || !c.begun {
		return
	}
	for at, number := range numbers {
		i := &c.state[number]
		if i.changed != 0 && c.edits[i.changed-1].Serial > serial {
			continue // it changed since
		}
		i.answer, i.stale = c.interned(answers[at]), false
	}
}

// Cells are the cells of items, if there are such.
func (t *Table) Cells(name string, numbers []uint32) ([]Cell, error) {
	t.mutex.Lock()
	defer t.mutex.Unlock()
	c := t.named[name]
	if c == nil {
		return nil, t.unknown(name)
	}
	for _, number := range numbers {
		if int(number) >= len(c.items.Cells) {
			return nil, refuse(400, "no such item", "there is no item %d", number)
		}
	}
	cells, _ := c.asking(numbers)
	return cells, nil
}

// Differ tells what isn't as it was seen, where only the digest of what was seen is known: what changed behind a
// serial, or, where nothing did, all.
func (t *Table) Differ(name string, numbers []uint32, now []*Answer, since uint64) error {
	t.mutex.Lock()
	defer t.mutex.Unlock()
	c := t.named[name]
	if c == nil || !c.begun {
		return t.unknown(name)
	}
	told := refuse(409, "another answer", "an answer isn't the one that was seen")
	all := func(is func(*item) bool) {
		for at, number := range numbers {
			if is(&c.state[number]) {
				told.Changed = append(told.Changed, c.changed(number, nil, now[at]))
			}
		}
	}
	all(func(i *item) bool { return i.changed != 0 && c.edits[i.changed-1].Serial > since })
	if len(told.Changed) == 0 {
		all(func(*item) bool { return true })
	}
	return told
}
