package campaigns

import (
	"crypto/sha256"
	"encoding/hex"
	"encoding/json"
	"errors"
	"fmt"
	"time"
)

// Checking checks a file of evidence line by line against the chain of the journal that its records are.
type Checking struct {
	Head    EvidenceHead
	Records int
	Chains  map[uint64][sha256.Size]byte // behind each serial
	Journal json.RawMessage              // the head of the journal, as its line
	chain   [sha256.Size]byte
	made    map[uint64]made // who made what is at a serial
	acts    map[uint64]*Record
	cells   map[uint64][]Cell
	signed  map[uint32]uint64 // of each item of the campaign the serial of its last act, or 0
	items   []EvidenceItem
	falls   map[uint32]map[uint64]uint64 // of each item, by the serial of an act, that of the edit which ended it
}

// made is who made a record, and when.
type made struct {
	by   string
	time time.Time
}

// evidenceLine is a line of evidence: one of these.
type evidenceLine struct {
	Record json.RawMessage
	Item   *EvidenceItem
	Act    *EvidenceAct
	Fall   *EvidenceFall
	Head   json.RawMessage
}

// Check begins to check a file by its first line.
func Check(first []byte) (*Checking, error) {
	c := &Checking{
		Chains: map[uint64][sha256.Size]byte{}, made: map[uint64]made{},
		acts: map[uint64]*Record{}, cells: map[uint64][]Cell{},
		signed: map[uint32]uint64{}, falls: map[uint32]map[uint64]uint64{},
	}
	if err := json.Unmarshal(first, &c.Head); err != nil || c.Head.Evidence != EvidenceKind {
		return nil, errors.New("it isn't evidence of a campaign")
	}
	before, err := hex.DecodeString(c.Head.Before)
	if err != nil || len(before) != len(c.chain) {
		return nil, errors.New("it doesn't say what the journal's chain was before it")
	}
	copy(c.chain[:], before)
	return c, nil
}

// Line takes a line.
func (c *Checking) Line(written []byte) error {
	var l evidenceLine
	if err := json.Unmarshal(written, &l); err != nil {
		return err
	}
	switch {
	case l.Record != nil:
		return c.record(l.Record)
	case l.Act != nil:
		var cells []Cell
		for _, cell := range l.Act.Cells {
			cells = append(cells, cell.Cell())
		}
		c.cells[l.Act.Serial] = cells
	case l.Item != nil:
		c.items = append(c.items, *l.Item)
	case l.Fall != nil && l.Fall.By != nil:
		if c.falls[l.Fall.Item] == nil {
			c.falls[l.Fall.Item] = map[uint64]uint64{}
		}
		c.falls[l.Fall.Item][l.Fall.Signed] = l.Fall.By.Serial
		return c.isMade(l.Fall.By)
	case l.Head != nil:
		c.Journal = l.Head
	default:
		return errors.New("it isn't a line of evidence")
	}
	return nil
}

// record takes a record of the journal.
func (c *Checking) record(raw []byte) error {
	sum := sha256.New()
	sum.Write(c.chain[:])
	sum.Write(raw)
	sum.Sum(c.chain[:0])
	var read struct {
		Time   time.Time
		By     string
		Serial uint64
		Line   json.RawMessage
	}
	if err := json.Unmarshal(raw, &read); err != nil {
		return err
	}
	c.Records++
	c.Chains[read.Serial] = c.chain
	c.made[read.Serial] = made{by: read.By, time: read.Time}
	if !IsRecord(read.Line) || read.Serial > c.Head.Until {
		return nil // what is behind it isn't told of items
	}
	r, err := Read(read.Line)
	if err != nil {
		return err
	}
	r.Serial, r.Time, r.By = read.Serial, read.Time, read.By
	c.acts[r.Serial] = r
	if r.Campaign != c.Head.Campaign {
		return nil
	}
	for _, number := range r.Items {
		if r.Signs() {
			c.signed[number] = r.Serial
		} else if r.Do == Undo {
			c.signed[number] = 0
		}
	}
	return nil
}

// isMade sees that an edit stands in the journal as it is told. It has to be behind the records.
func (c *Checking) isMade(e *Edit) error {
	there, known := c.made[e.Serial]
	if e.Unknown && e.By == "" {
		return nil
	}
	if !known || there.by != e.By || !there.time.Equal(e.Time) {
		return fmt.Errorf("the edit of serial %d isn't by %s at %s in the journal", e.Serial, e.By,
			e.Time.Format(time.RFC3339))
	}
	return nil
}

// End sees that what is told of items is what the records say.
func (c *Checking) End() error {
	opened := c.acts[c.Head.Serial]
	if opened == nil || opened.Do != Open || opened.Campaign != c.Head.Campaign {
		return fmt.Errorf("serial %d doesn't open the campaign %s", c.Head.Serial, c.Head.Campaign)
	}
	if len(c.signed) > 0 && len(c.items) == 0 {
		return errors.New("it has no items")
	}
	for serial, r := range c.acts {
		if !r.Signs() || r.Campaign != c.Head.Campaign && c.cells[serial] == nil {
			continue
		}
		if err := c.act(r); err != nil {
			return err
		}
	}
	for at := range c.items {
		if err := c.item(&c.items[at], uint32(at)); err != nil {
			return err
		}
	}
	for number := range c.signed {
		if int(number) >= len(c.items) {
			return fmt.Errorf("item %d was signed, and isn't told", number)
		}
	}
	return nil
}

// act sees that the cells of an act are those of its digest.
func (c *Checking) act(r *Record) error {
	cells := c.cells[r.Serial]
	if len(cells) != len(r.Items) {
		return fmt.Errorf("the act of serial %d is of %d items, and %d cells are told", r.Serial, len(r.Items), len(cells))
	}
	var answers []*Answer
	for at := range r.Items {
		one, err := r.answer(at)
		if err != nil {
			return fmt.Errorf("the act of serial %d: %w", r.Serial, err)
		}
		answers = append(answers, one)
	}
	if Digest(cells, answers) != r.Digest {
		return fmt.Errorf("the cells told of the act of serial %d aren't those that were signed", r.Serial)
	}
	return nil
}

// item sees that an item is as the records say.
func (c *Checking) item(i *EvidenceItem, at uint32) error {
	if i.Item != at {
		return fmt.Errorf("item %d is told as %d", at, i.Item)
	}
	last := c.signed[at]
	switch {
	case i.Signed == nil && last != 0:
		return fmt.Errorf("item %d was signed by serial %d, and is told as if it weren't", at, last)
	case i.Signed == nil:
		if i.State != StateOpen.String() && i.State != StateGone.String() {
			return fmt.Errorf("item %d is told as %s, and nobody signed it", at, i.State)
		}
		return nil
	case i.Signed.From == "" && i.Signed.Serial != last, i.Signed.From != "" && last != 0:
		return fmt.Errorf("item %d was signed by serial %d, and is told as signed by %d", at, last, i.Signed.Serial)
	}
	r := c.acts[i.Signed.Serial]
	if r == nil || !r.Signs() || r.By != i.Signed.By || !r.Time.Equal(i.Signed.Time) || r.Digest != i.Signed.Digest {
		return fmt.Errorf("item %d isn't signed by %s at serial %d in the journal", at, i.Signed.By, i.Signed.Serial)
	}
	if err := c.signedAs(i, r); err != nil {
		return err
	}
	return c.stands(i, r)
}

// signedAs sees that the act is of that cell, with that answer.
func (c *Checking) signedAs(i *EvidenceItem, r *Record) error {
	for at, cell := range c.cells[r.Serial] {
		if cell != i.Cell.Cell() {
			continue
		}
		answer, err := r.answer(at)
		if err != nil || i.Seen == nil || answer.text() != i.Seen.text() {
			return fmt.Errorf("item %d was signed with another answer than is told", i.Item)
		}
		return nil
	}
	return fmt.Errorf("the act of serial %d isn't of item %d", r.Serial, i.Item)
}

// stands sees that what is told to stand has no fall, and what fell has one.
func (c *Checking) stands(i *EvidenceItem, r *Record) error {
	fell, ended := c.falls[i.Item][r.Serial]
	kept := i.State == StateKept.String() && r.Do == Keep
	due := (i.State == StateRevoke.String() || i.State == StateRevoked.String()) && r.Do == Revoke
	if (kept || due) == ended {
		return fmt.Errorf("item %d is told as %s, and its sign-off of serial %d fell: %v", i.Item, i.State, r.Serial, ended)
	}
	if ended && (fell <= r.Serial || i.By == nil || i.By.Serial != fell) {
		return fmt.Errorf("the sign-off of item %d fell by serial %d, and it is told otherwise", i.Item, fell)
	}
	if i.By != nil {
		return c.isMade(i.By)
	}
	return nil
}
