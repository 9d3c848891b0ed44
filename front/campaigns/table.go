package campaigns

import (
	"fmt"
	"net/http"
	"sync"
	"time"

	"review-front/changed"
)

// Table has all campaigns of a journal. What records say counts as soon as they have their place; what edits do to
// sign-offs counts once it is known what each edit changed, in the order of the journal.
type Table struct {
	mutex sync.Mutex
	all   []*Campaign // in the order in which they were opened
	named map[string]*Campaign
	due   []*Record // records that have their place, and whose turn among edits hasn't come
	last  uint64    // the serial of the last record
	upTo  uint64    // the serial up to which it is known which sign-offs stand
	// begins is the serial behind which the journals begin.
	begins uint64
	moved  chan struct{}
}

// Campaign is one of them.
type Campaign struct {
	*Definition
	Serial uint64
	Time   time.Time
	By     string
	items  *Items
	closed *Record // that which ended it
	// reviewers has who reviews each item, by numbers of names; signed who signed it last, by places of acts and 1; and
	// reminded the days of which a reminder was sent.
	reviewers []uint32
	names     []string
	numbers   map[string]uint32
	signers   []uint32
	acts      []*Record
	records   []*Record // all of them
	reminded  map[string]bool
	standing
}

// NewTable makes a table without a campaign.
func NewTable() *Table {
	return &Table{named: map[string]*Campaign{}, moved: make(chan struct{})}
}

// Refused says why a record isn't taken.
type Refused struct {
	Status  int
	Title   string
	Detail  string
	Changed []Changed // what isn't as it was seen
}

func (r *Refused) Error() string { return r.Title + ": " + r.Detail }

// Changed is an item whose answer isn't the one that was seen.
type Changed struct {
	Item     uint32  `json:"item"`
	Person   string  `json:"person"`
	Action   string  `json:"action"`
	Resource string  `json:"resource"`
	Before   *Answer `json:"before,omitempty"` // what was seen, where that is known
	After    *Answer `json:"after"`
	By       *Edit   `json:"by,omitempty"` // the last edit that changed it, where that is known
}

// refuse says why a record isn't taken.
func refuse(status int, title, detail string, about ...any) *Refused {
	return &Refused{Status: status, Title: title, Detail: fmt.Sprintf(detail, about...)}
}

// unknown says that there is no such campaign, or none that is known here.
func (t *Table) unknown(name string) *Refused {
	if t.begins > 0 {
		return refuse(http.StatusNotFound, "no such campaign",
			"there is no campaign %q behind serial %d, where the journals "+
				"of this front begin", name, t.begins)
	}
	return refuse(http.StatusNotFound, "no such campaign", "there is no campaign %q", name)
}

// Begins says behind which serial the journals begin: of campaigns of before nothing is known.
func (t *Table) Begins(serial uint64) {
	t.mutex.Lock()
	defer t.mutex.Unlock()
	t.begins = serial
}

// Judge says whether a record is taken at its place, where the program answers by `ask`. What it gives of a campaign
// that is opened is its items. An error that isn't Refused says that it can't be judged. Meanwhile no record gets its
// place.
func (t *Table) Judge(r *Record, ask Asker) (*Items, error) {
	if r.Do == Open {
		return t.opens(r, ask)
	}
	c, err := t.allows(r)
	if err != nil || !r.Signs() {
		return nil, err
	}
	return nil, t.judgeAnswers(c, r, ask)
}

// May says why a record wouldn't be taken now, but for what answers are.
func (t *Table) May(r *Record) error {
	_, err := t.allows(r)
	return err
}

// allows says whether a record is taken, but for what answers are.
func (t *Table) allows(r *Record) (*Campaign, error) {
	t.mutex.Lock()
	defer t.mutex.Unlock()
	c := t.named[r.Campaign]
	if c == nil {
		return nil, t.unknown(r.Campaign)
	}
	switch {
	case c.closed != nil || c.endedAt(r.Time) && r.Do != Close:
		return nil, refuse(http.StatusConflict, "ended", "the campaign %s has ended", c.Name)
	case r.Do == Remind && c.reminded[r.Day]:
		return nil, refuse(http.StatusConflict, "reminded before", "of %s all were reminded", r.Day)
	case r.Do == Remind || r.Do == Close:
		return c, nil
	case r.Do == Keep || r.Do == Revoke || r.Do == Pass || r.Do == Undo:
		return c, c.judge(r)
	}
	return nil, refuse(http.StatusBadRequest, "no such act", "nobody knows the act %s", r.Do)
}

// mayOpen says whether a campaign may be opened.
func (t *Table) mayOpen(r *Record) error {
	t.mutex.Lock()
	defer t.mutex.Unlock()
	d := r.Definition
	switch {
	case d == nil || d.wrong() != nil || d.Name != r.Campaign:
		return refuse(http.StatusBadRequest, "no campaign", "it isn't defined as it has to be")
	case t.named[d.Name] != nil:
		return refuse(http.StatusConflict, "already there", "there is a campaign %s", d.Name)
	case d.After != "" && t.named[d.After] == nil:
		return t.unknown(d.After)
	case d.endedAt(r.Time):
		return refuse(http.StatusUnprocessableEntity, "ended", "%s is over", d.Ends)
	}
	return nil
}

// opens says whether a campaign may be opened, and finds its items.
func (t *Table) opens(r *Record, ask Asker) (*Items, error) {
	if err := t.mayOpen(r); err != nil {
		return nil, err
	}
	items, err := Make(r.Definition, ask)
	if err == nil && len(items.Cells) == 0 {
		err = refuse(http.StatusUnprocessableEntity, "nothing to sign", "no cell is in the scope")
	}
	return items, err
}

// judge says whether somebody may act on items.
func (c *Campaign) judge(r *Record) error {
	if len(r.Items) == 0 {
		return refuse(http.StatusBadRequest, "no items", "an act names items")
	}
	if r.Do == Pass && r.To == "" {
		return refuse(http.StatusBadRequest, "nobody", "it isn't said whose the items are")
	}
	for at, number := range r.Items {
		if int(number) >= len(c.items.Cells) || at > 0 && number <= r.Items[at-1] {
			return refuse(http.StatusBadRequest, "no such item", "items are numbers below %d that grow", len(c.items.Cells))
		}
		if who := c.names[c.reviewers[number]]; who != r.By && (r.Person == "" || who != r.Person) {
			return refuse(http.StatusForbidden, "not yours", "item %d is reviewed by %s", number, who)
		}
		person := Plain(c.items.Cell(number).Person)
		if r.Signs() && !c.Self && (person == r.By || person == r.Person) {
			return refuse(http.StatusForbidden, "your own", "nobody signs for herself, and item %d is of %s", number, person)
		}
		if last := c.signers[number]; r.Do == Undo && (last == 0 || c.acts[last-1].By != r.By) {
			return refuse(http.StatusConflict, "not signed", "%s has no sign-off of item %d", r.By, number)
		}
	}
	return nil
}

// judgeAnswers sees that answers are those which were seen.
func (t *Table) judgeAnswers(c *Campaign, r *Record, ask Asker) error {
	cells, lines := c.asking(r.Items)
	replies, err := ask.Ask(lines...)
	if err != nil {
		return err
	}
	var now []*Answer
	for _, reply := range replies {
		one, err := ReadAnswer(reply)
		if err != nil {
			return err
		}
		now = append(now, one)
	}
	if Digest(cells, now) == r.Digest {
		return c.judgeSigned(r, now)
	}
	told := refuse(http.StatusConflict, "another answer", "an answer isn't the one that was seen")
	t.mutex.Lock()
	defer t.mutex.Unlock()
	for at, number := range r.Items {
		seen, err := r.answer(at)
		if err == nil && seen.text() == now[at].text() {
			continue
		}
		told.Changed = append(told.Changed, c.changed(number, seen, now[at]))
	}
	return told
}

// judgeSigned sees that what is signed is of the scope, and what is to be revoked is there.
func (c *Campaign) judgeSigned(r *Record, now []*Answer) error {
	for at, number := range r.Items {
		if decision, _ := changed.ReadDecision(now[at].decision()); !c.covers(decision) {
			return refuse(http.StatusUnprocessableEntity, "nothing to sign", "item %d is out of the scope by now", number)
		}
		if r.Do == Revoke && now[at].decision() != "Permit" {
			return refuse(http.StatusUnprocessableEntity, "nothing to revoke", "item %d is no Permit", number)
		}
		seen, err := r.answer(at)
		if err != nil || seen.text() != now[at].text() {
			return refuse(http.StatusBadRequest, "no answers", "the record has other answers than its digest")
		}
	}
	if r.Do == Revoke && r.Why == "" {
		return refuse(http.StatusBadRequest, "no why", "it isn't said why it is to be revoked")
	}
	return nil
}

// asking are the cells of items, and the lines that ask for them.
func (c *Campaign) asking(numbers []uint32) (cells []Cell, lines [][]byte) {
	for _, number := range numbers {
		cell := c.items.Cell(number)
		cells, lines = append(cells, cell), append(lines, cell.Question())
	}
	return cells, lines
}

// changed tells of an item whose answer isn't the one that was seen.
func (c *Campaign) changed(number uint32, seen, now *Answer) Changed {
	cell := c.items.Cell(number)
	told := Changed{
		Item: number, Person: Plain(cell.Person), Action: Plain(cell.Action), Resource: Plain(cell.Resource), Before: seen,
		After: now,
	}
	if c.begun && c.state[number].changed != 0 {
		told.By = c.edits[c.state[number].changed-1]
	}
	return told
}

// Apply takes a record that was judged, or stands in the journal, once it has its place.
func (t *Table) Apply(r *Record, items *Items) error {
	t.mutex.Lock()
	defer t.mutex.Unlock()
	c := t.named[r.Campaign]
	if r.Do == Open {
		if c != nil || items == nil || r.Definition == nil {
			return fmt.Errorf("the campaign %s of serial %d can't be opened", r.Campaign, r.Serial)
		}
		c = newCampaign(r, items)
		t.all, t.named[c.Name] = append(t.all, c), c
	}
	if c == nil {
		return fmt.Errorf("serial %d is of a campaign %q that isn't there", r.Serial, r.Campaign)
	}
	for _, number := range r.Items {
		if int(number) >= len(c.items.Cells) {
			return fmt.Errorf("serial %d is of an item %d of %s that isn't there", r.Serial, number, c.Name)
		}
	}
	c.apply(r)
	t.due, t.last = append(t.due, r), r.Serial
	return nil
}

// newCampaign is one that is opened.
func newCampaign(r *Record, items *Items) *Campaign {
	c := &Campaign{
		Definition: r.Definition, Serial: r.Serial, Time: r.Time, By: r.By, items: items,
	}
	c.clear()
	return c
}

// clear forgets what records said.
func (c *Campaign) clear() {
	c.closed, c.acts, c.records, c.names, c.reminded = nil, nil, nil, nil, map[string]bool{}
	c.numbers = map[string]uint32{}
	c.reviewers, c.signers = make([]uint32, len(c.items.Cells)), make([]uint32, len(c.items.Cells))
	for _, name := range c.items.Reviewers {
		c.number(name)
	}
	for i, item := range c.items.Cells {
		c.reviewers[i] = item.Reviewer
	}
}

// number is the number of a reviewer.
func (c *Campaign) number(name string) uint32 {
	at, there := c.numbers[name]
	if !there {
		at = uint32(len(c.names))
		c.numbers[name], c.names = at, append(c.names, name)
	}
	return at
}

// apply has a record count for what is judged behind it.
func (c *Campaign) apply(r *Record) {
	c.records = append(c.records, r)
	switch r.Do {
	case Close:
		c.closed = r
	case Remind:
		c.reminded[r.Day] = true
	case Pass:
		to := c.number(r.To)
		for _, number := range r.Items {
			c.reviewers[number] = to
		}
	case Keep, Revoke, Undo:
		c.acts = append(c.acts, r)
		for _, number := range r.Items {
			if c.signers[number] = uint32(len(c.acts)); r.Do == Undo {
				c.signers[number] = 0
			}
		}
	}
}

// Last is the serial of the last record.
func (t *Table) Last() uint64 {
	t.mutex.Lock()
	defer t.mutex.Unlock()
	return t.last
}

// First is the serial of the first campaign, or nothing where there is none.
func (t *Table) First() (uint64, time.Time, bool) {
	t.mutex.Lock()
	defer t.mutex.Unlock()
	if len(t.all) == 0 {
		return 0, time.Time{}, false
	}
	return t.all[0].Serial, t.all[0].Time, true
}

// Cut forgets records behind a serial, which aren't in the journal.
func (t *Table) Cut(last uint64) {
	t.mutex.Lock()
	defer t.mutex.Unlock()
	if t.last <= last {
		return
	}
	t.last = last
	t.due = upTo(t.due, last)
	var left []*Campaign
	for _, c := range t.all {
		if c.Serial > last {
			delete(t.named, c.Name)
			continue
		}
		left = append(left, c)
		records := upTo(c.records, last)
		c.clear()
		for _, r := range records {
			c.apply(r)
		}
	}
	t.all = left
}

// upTo are the records up to a serial.
func upTo(all []*Record, last uint64) []*Record {
	for i, r := range all {
		if r.Serial > last {
			return all[:i:i]
		}
	}
	return all
}
