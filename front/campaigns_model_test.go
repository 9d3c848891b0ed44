package main

import (
	"crypto/sha256"
	"encoding/hex"
	"encoding/json"
	"fmt"
	"strings"
	"testing"

	"review-front/folder"
)

// reviewed is a model of campaigns: it tells a program the edits of a journal, looks at the whole table behind each,
// and knows nothing of how the front finds out what changed.
type reviewed struct {
	t       testing.TB
	twin    *twin
	told    uint64 // the serial up to which it followed
	own     uint64 // how many edits that are
	table   map[string]string
	order   []string // the cells of the table
	all     []*modelCampaign
	records map[uint64]string // lines of records by serials
}

// modelCampaign is a campaign as the model has it.
type modelCampaign struct {
	name, on string
	items    []*modelItem
	at       map[string]*modelItem
}

// modelItem is an item: what it answers, what was signed and by which serial, and which ended that.
type modelItem struct {
	cell, answer, state, seen string
	signed, by                uint64
}

func newReviewed(t testing.TB) *reviewed {
	return &reviewed{t: t, twin: newTwin(t), records: map[uint64]string{}}
}

// cellOf is as much of a cell as the model reads.
type cellOf struct{ Person, Action, Resource, Decision string }

func (c cellOf) name() string { return c.Person + "\x00" + c.Action + "\x00" + c.Resource }

// look reads the whole table.
func (m *reviewed) look() {
	m.t.Helper()
	var said struct{ Cells []json.RawMessage }
	if err := json.Unmarshal([]byte(m.twin.ask(`{"do":"cells"}`)), &said); err != nil {
		m.t.Fatal(err)
	}
	m.table, m.order = map[string]string{}, nil
	for _, raw := range said.Cells {
		var cell cellOf
		if err := json.Unmarshal(raw, &cell); err != nil {
			m.t.Fatal(err)
		}
		m.table[cell.name()] = string(raw)
		m.order = append(m.order, cell.name())
	}
}

// decisionIn is the decision of a cell, or nothing where it isn't listed.
func decisionIn(cell string) string {
	var read cellOf
	_ = json.Unmarshal([]byte(cell), &read)
	return read.Decision
}

// follow takes what a journal has more.
func (m *reviewed) follow(path string) {
	m.t.Helper()
	err := folder.History(path, m.told, func(e folder.Entry) error {
		m.told = e.Serial
		if strings.HasPrefix(string(e.Line), `{"do":"campaign.`) {
			return m.record(e.Serial, append([]byte(nil), e.Line...))
		}
		m.own++
		want := fmt.Sprintf(`{"changes":%d,"serial":%d}`, e.Changes, m.own)
		if got := m.twin.ask(string(e.Line)); got != want {
			return fmt.Errorf("%s is answered %s, and by the journal %s", e.Line, got, want)
		}
		m.look()
		for _, c := range m.all {
			c.follow(m.table, e.Serial)
		}
		return nil
	})
	if err != nil {
		m.t.Fatal(err)
	}
}

// follow has a campaign see a table behind an edit.
func (c *modelCampaign) follow(table map[string]string, serial uint64) {
	for _, i := range c.items {
		now := table[i.cell]
		if now == i.answer {
			continue
		}
		before, after := decisionIn(i.answer), decisionIn(now)
		i.answer = now
		switch {
		case i.state == "kept" && (c.on == "answer" || before != after), i.state == "revoked" && after == "Permit":
			i.by = serial
			i.unsigned()
		case i.state == "revoke" && after != "Permit":
			i.state, i.by = "revoked", serial
		case i.state == "open" || i.state == "fell" || i.state == "gone":
			i.unsigned()
		}
	}
}

// unsigned has an item be to be signed, if it is still a Permit.
func (i *modelItem) unsigned() {
	switch {
	case decisionIn(i.answer) != "Permit":
		i.state = "gone"
	case i.signed != 0:
		i.state = "fell"
	default:
		i.state = "open"
	}
}

// back says whether an item that fell has again what was signed.
func (i *modelItem) back(on string) bool {
	same := i.answer == i.seen || on == "decision" && decisionIn(i.answer) == decisionIn(i.seen)
	return i.state == "fell" && same
}

// record takes a record of the journal. An act has to have been made over the answers that there are at its place.
func (m *reviewed) record(serial uint64, l []byte) error {
	m.records[serial] = string(l)
	var r struct {
		Do, Campaign, Digest string
		Items                []int
		Definition           *struct{ On, After string }
	}
	if err := json.Unmarshal(l, &r); err != nil {
		return err
	}
	if r.Do == "campaign.open" {
		m.all = append(m.all, m.opened(r.Campaign, r.Definition.On, r.Definition.After))
		return nil
	}
	c := m.campaign(r.Campaign)
	sum := sha256.New()
	for _, number := range r.Items {
		i := c.items[number]
		sum.Write([]byte(i.answer + "\n"))
		switch r.Do {
		case "campaign.keep", "campaign.revoke":
			i.state, i.signed, i.seen, i.by = map[string]string{"campaign.keep": "kept", "campaign.revoke": "revoke"}[r.Do],
				serial, i.answer, 0
		case "campaign.undo":
			i.signed, i.by = 0, 0
			i.unsigned()
		}
	}
	if got := hex.EncodeToString(sum.Sum(nil)); r.Digest != "" && got != r.Digest {
		return fmt.Errorf("serial %d was signed over other answers than there are", serial)
	}
	return nil
}

// campaign is one by its name.
func (m *reviewed) campaign(name string) *modelCampaign {
	for _, c := range m.all {
		if c.name == name {
			return c
		}
	}
	m.t.Fatalf("there is no campaign %s", name)
	return nil
}

// opened is a campaign over all Permits, which takes over what stands in another one.
func (m *reviewed) opened(name, on, after string) *modelCampaign {
	c := &modelCampaign{name: name, on: on, at: map[string]*modelItem{}}
	for _, cell := range m.order {
		if decisionIn(m.table[cell]) != "Permit" {
			continue
		}
		i := &modelItem{cell: cell, answer: m.table[cell], state: "open"}
		if after != "" {
			old := m.campaign(after).at[cell]
			stands := old != nil && (old.state == "kept" || old.state == "revoke")
			if stands && (on == "decision" || old.seen == i.answer) {
				i.state, i.signed, i.seen = old.state, old.signed, old.seen
			}
		}
		c.items, c.at[cell] = append(c.items, i), i
	}
	return c
}

// same sees that a front tells all items of all campaigns as the model has them.
func (m *reviewed) same(f *front) {
	m.t.Helper()
	for _, c := range m.all {
		told := f.items(m.t, "boss", c.name, "count=1000")
		if told.More {
			m.t.Fatalf("%s has too many groups", c.name)
		}
		seen := 0
		for _, group := range told.Groups {
			for _, item := range group.Items {
				seen++
				i := c.items[item.Item]
				cell := cellOf{Person: group.Person, Action: item.Action, Resource: item.Resource}
				want := fmt.Sprint(i.cell, i.state, i.signed, i.by, i.back(c.on))
				signed, by := uint64(0), uint64(0)
				if item.Signed != nil {
					signed = item.Signed.Serial
				}
				if item.By != nil {
					by = item.By.Serial
				}
				if got := fmt.Sprint(cell.name(), group.State, signed, by, item.Back); got != want {
					m.t.Fatalf("item %d of %s is told as\n%q, and is\n%q\nup to %d", item.Item, c.name, got, want, m.told)
				}
			}
		}
		if seen != len(c.items) {
			m.t.Fatalf("%s has %d items, and %d are told", c.name, len(c.items), seen)
		}
	}
}
