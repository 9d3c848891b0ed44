package campaigns

import (
	"encoding/json"
	"time"
)

// EvidenceKind is the first key of a file of evidence.
const EvidenceKind = 1

// EvidenceHead is the first line of a file of evidence: of which campaign it is, and what the journal's chain is before
// the first record in it.
type EvidenceHead struct {
	Evidence int       `json:"evidence"`
	Campaign string    `json:"campaign"`
	Serial   uint64    `json:"serial"` // that of the campaign's record
	Made     time.Time `json:"made"`
	Since    uint64    `json:"since"` // the serial before the first record
	Until    uint64    `json:"until"` // that of the last one
	Before   string    `json:"before"`
	Stream   string    `json:"stream,omitempty"`
}

// EvidenceItem is an item, and what became of it.
type EvidenceItem struct {
	Item     uint32   `json:"item"`
	Cell     CellText `json:"cell"`
	Reviewer string   `json:"reviewer"`
	State    string   `json:"state"`
	Opened   *Answer  `json:"opened"` // its answer when the campaign was opened
	Signed   *Told    `json:"signed,omitempty"`
	Seen     *Answer  `json:"seen,omitempty"` // the answer that was signed
	By       *Edit    `json:"by,omitempty"`
}

// EvidenceFall is that an edit ended a sign-off.
type EvidenceFall struct {
	Item   uint32 `json:"item"`
	Signed uint64 `json:"signed"` // the serial of the act
	By     *Edit  `json:"by"`
}

// EvidenceAct has the cells of an act, in the order of its items.
type EvidenceAct struct {
	Serial uint64     `json:"serial"`
	Cells  []CellText `json:"cells"`
}

// CellText is a cell as a list of its names, each as the program writes it.
type CellText [3]json.RawMessage

// text writes a cell.
func (c Cell) text() CellText {
	of := func(name string) json.RawMessage { return json.RawMessage(`"` + name + `"`) }
	return CellText{of(c.Person), of(c.Action), of(c.Resource)}
}

// Cell is the cell that is written.
func (c CellText) Cell() Cell {
	of := func(name json.RawMessage) string {
		if len(name) < 2 {
			return ""
		}
		return string(name[1 : len(name)-1])
	}
	return Cell{Person: of(c[0]), Action: of(c[1]), Resource: of(c[2])}
}

// Evidence is what is told of a campaign, but for the records of the journal.
type Evidence struct {
	Head  EvidenceHead
	Items []EvidenceItem
	Acts  []EvidenceAct
	Falls []EvidenceFall
}

// Evidence gives what is so of a campaign, and from which serial on there are records that it rests on.
func (t *Table) Evidence(name string) (*Evidence, error) {
	t.mutex.Lock()
	defer t.mutex.Unlock()
	c := t.named[name]
	if c == nil || !c.begun {
		return nil, t.unknown(name)
	}
	e := &Evidence{Head: EvidenceHead{
		Evidence: EvidenceKind, Campaign: name, Serial: c.Serial, Since: c.Serial - 1, Until: t.upTo,
	}}
	for number := range c.state {
		e.Items = append(e.Items, c.evidence(uint32(number)))
	}
	told := map[uint64]bool{}
	for _, sign := range c.signed {
		if told[sign.Serial] {
			continue
		}
		told[sign.Serial] = true
		if sign.Serial <= e.Head.Since {
			e.Head.Since = sign.Serial - 1
		}
		act := EvidenceAct{Serial: sign.Serial}
		of := t.named[sign.Campaign]
		for _, number := range sign.Items {
			act.Cells = append(act.Cells, of.items.Cell(number).text())
		}
		e.Acts = append(e.Acts, act)
	}
	for _, fall := range c.falls {
		e.Falls = append(e.Falls, EvidenceFall{Item: fall.Item, Signed: c.signed[fall.Sign].Serial, By: c.edits[fall.Edit]})
	}
	return e, nil
}

// evidence tells an item.
func (c *Campaign) evidence(number uint32) EvidenceItem {
	i := &c.state[number]
	told := EvidenceItem{
		Item: number, Cell: c.items.Cell(number).text(), Reviewer: c.names[c.reviewers[number]], State: i.state.String(),
		Opened: c.items.Answers[c.items.Cells[number].Answer],
	}
	if i.sign != 0 {
		told.Signed, told.Seen = c.signed[i.sign-1].told(), c.answers[i.seen-1]
	}
	if i.by != 0 {
		told.By = c.edits[i.by-1]
	}
	return told
}
