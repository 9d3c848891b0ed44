package campaigns

import (
	"bytes"
	"encoding/gob"
	"errors"
	"fmt"
	"sort"

	"review-front/changed"
)

// copyFormat is the version of what another front is given.
const copyFormat = 1

// copied is all that is known of campaigns, for a front that begins with another's snapshot.
type copied struct {
	Format     int
	UpTo, Last uint64
	All        []copiedCampaign
}

// copiedCampaign is a campaign: its records, its items, and what is so of them.
type copiedCampaign struct {
	Records []*Record
	Items   *Items
	Begun   bool
	State   []copiedItem
	Answers []*Answer
	Edits   []copiedEdit
	Signed  []*Sign
	Falls   []Fall
	Events  []Event
}

// copiedItem is an item as it stands.
type copiedItem struct {
	State, Decision, Last           byte
	Stale                           bool
	Answer, Seen, Sign, By, Changed uint32
}

// copiedEdit is an edit, and how many sign-offs it ended.
type copiedEdit struct {
	Edit Edit
	Fell int
}

// Content is all that is known of campaigns.
func (t *Table) Content() ([]byte, error) {
	t.mutex.Lock()
	defer t.mutex.Unlock()
	all := copied{Format: copyFormat, UpTo: t.upTo, Last: t.last}
	for _, c := range t.all {
		one := copiedCampaign{
			Records: c.records, Items: c.items, Begun: c.begun, Answers: c.answers, Signed: c.signed, Falls: c.falls,
			Events: c.events,
		}
		for _, i := range c.state {
			one.State = append(one.State, copiedItem{
				State: byte(i.state), Decision: byte(i.decision), Last: byte(i.last), Stale: i.stale, Answer: i.answer,
				Seen: i.seen, Sign: i.sign, By: i.by, Changed: i.changed,
			})
		}
		for _, e := range c.edits {
			one.Edits = append(one.Edits, copiedEdit{Edit: *e, Fell: e.fell})
		}
		all.All = append(all.All, one)
	}
	var to bytes.Buffer
	if err := gob.NewEncoder(&to).Encode(all); err != nil {
		return nil, fmt.Errorf("what is known of campaigns: %w", err)
	}
	return to.Bytes(), nil
}

// Adopt takes what another front knows of campaigns, where nothing is known yet.
func (t *Table) Adopt(content []byte) error {
	var all copied
	if err := gob.NewDecoder(bytes.NewReader(content)).Decode(&all); err != nil {
		return fmt.Errorf("what another front knows of campaigns: %w", err)
	}
	if all.Format != copyFormat {
		return fmt.Errorf("what another front knows of campaigns has the format %d, and this program knows %d", all.Format,
			copyFormat)
	}
	t.mutex.Lock()
	defer t.mutex.Unlock()
	if len(t.all) > 0 {
		return errors.New("campaigns are known already")
	}
	for _, one := range all.All {
		c, err := one.campaign()
		if err != nil {
			return err
		}
		t.all, t.named[c.Name] = append(t.all, c), c
		for _, r := range one.Records {
			if r.Serial > all.UpTo {
				t.due = append(t.due, r)
			}
		}
	}
	sort.SliceStable(t.due, func(i, j int) bool { return t.due[i].Serial < t.due[j].Serial })
	t.upTo, t.last = all.UpTo, all.Last
	return nil
}

// campaign is the campaign that was copied.
func (one copiedCampaign) campaign() (*Campaign, error) {
	if len(one.Records) == 0 || one.Records[0].Do != Open || one.Records[0].Definition == nil || one.Items == nil ||
		one.Begun && len(one.State) != len(one.Items.Cells) {
		return nil, errors.New("what another front knows of a campaign isn't whole")
	}
	one.Items.index()
	one.Items.begin()
	c := newCampaign(one.Records[0], one.Items)
	for _, r := range one.Records {
		c.apply(r)
	}
	c.begun, c.answers, c.signed, c.falls, c.events = one.Begun, one.Answers, one.Signed, one.Falls, one.Events
	c.index = map[string]uint32{}
	for at, answer := range c.answers {
		c.index[answer.text()] = uint32(at + 1)
	}
	for _, i := range one.State {
		c.state = append(c.state, item{
			state: State(i.State), decision: changed.Decision(i.Decision), last: Last(i.Last), stale: i.Stale, answer: i.Answer,
			seen: i.Seen, sign: i.Sign, by: i.By, changed: i.Changed,
		})
	}
	for _, e := range one.Edits {
		edit := e.Edit
		edit.fell = e.Fell
		c.edits = append(c.edits, &edit)
	}
	return c, nil
}

// Has says whether a record of a serial was taken.
func (t *Table) Has(serial uint64) bool {
	t.mutex.Lock()
	defer t.mutex.Unlock()
	for _, c := range t.all {
		at := sort.Search(len(c.records), func(i int) bool { return c.records[i].Serial >= serial })
		if at < len(c.records) && c.records[at].Serial == serial {
			return true
		}
	}
	return false
}
