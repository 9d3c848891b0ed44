package campaigns

import (
	"bytes"
	"crypto/sha256"
	"encoding/hex"
	"encoding/json"
	"fmt"
	"strings"
	"time"
)

// The commands of records.
const (
	Open   = "campaign.open"
	Close  = "campaign.close"
	Keep   = "campaign.keep"
	Revoke = "campaign.revoke"
	Pass   = "campaign.pass"
	Undo   = "campaign.undo"
	Remind = "campaign.remind"
)

// Prefix begins the line of each record, and that of no edit which the program takes.
const Prefix = `{"do":"campaign.`

// Record is a record of the journal, as its line has it.
type Record struct {
	Do       string `json:"do"`
	Campaign string `json:"campaign"`
	// Definition is that of a campaign which is opened.
	Definition *Definition `json:"definition,omitempty"`
	// Person is which listed person acts, if that is known.
	Person string `json:"person,omitempty"`
	// Items are those that are meant, by their numbers, which grow.
	Items []uint32 `json:"items,omitempty"`
	// Digest is that of the answers which were seen, and Answers are these; Seen says which each item had, where there
	// are several.
	Digest  string    `json:"digest,omitempty"`
	Answers []*Answer `json:"answers,omitempty"`
	Seen    []uint32  `json:"seen,omitempty"`
	Why     string    `json:"why,omitempty"` // why something is to be revoked
	To      string    `json:"to,omitempty"`  // whose the items are
	Day     string    `json:"day,omitempty"` // the day of a reminder

	// Serial, Time and By are of its place in the journal.
	Serial uint64    `json:"-"`
	Time   time.Time `json:"-"`
	By     string    `json:"-"`
}

// IsRecord says whether a line of the journal is that of a record.
func IsRecord(line []byte) bool { return bytes.HasPrefix(line, []byte(Prefix)) }

// Read reads the line of a record.
func Read(line []byte) (*Record, error) {
	r := &Record{}
	if err := json.Unmarshal(line, r); err != nil {
		return nil, fmt.Errorf("a record of a campaign: %w", err)
	}
	if !strings.HasPrefix(r.Do, "campaign.") {
		return nil, fmt.Errorf("a record of a campaign has the command %q", r.Do)
	}
	return r, nil
}

// Line is the record as a line. What the program wrote stays as it wrote it.
func (r *Record) Line() ([]byte, error) {
	var to bytes.Buffer
	writing := json.NewEncoder(&to)
	writing.SetEscapeHTML(false)
	if err := writing.Encode(r); err != nil {
		return nil, fmt.Errorf("a record of a campaign: %w", err)
	}
	return bytes.TrimSuffix(to.Bytes(), []byte("\n")), nil
}

// Signs says whether a record signs its items.
func (r *Record) Signs() bool { return r.Do == Keep || r.Do == Revoke }

// answer is which answer was seen of the item at a place of the list.
func (r *Record) answer(at int) (*Answer, error) {
	which := uint32(0)
	if len(r.Seen) > 0 {
		if len(r.Seen) != len(r.Items) {
			return nil, fmt.Errorf("%d items have %d answers", len(r.Items), len(r.Seen))
		}
		which = r.Seen[at]
	}
	if int(which) >= len(r.Answers) || r.Answers[which] == nil {
		return nil, fmt.Errorf("an item has no answer")
	}
	return r.Answers[which], nil
}

// See writes down which answers were seen, in the order of the items.
func (r *Record) See(answers []*Answer) {
	known := map[string]uint32{}
	r.Answers, r.Seen = nil, nil
	for _, one := range answers {
		text := one.text()
		which, there := known[text]
		if !there {
			which = uint32(len(r.Answers))
			known[text], r.Answers = which, append(r.Answers, one)
		}
		r.Seen = append(r.Seen, which)
	}
	if len(r.Answers) <= 1 {
		r.Seen = nil
	}
}

// Answer is the answer of a cell as the program writes it, without its names.
type Answer struct {
	Advice      json.RawMessage `json:"advice"`
	Decision    json.RawMessage `json:"decision"`
	Obligations json.RawMessage `json:"obligations"`
	Status      json.RawMessage `json:"status"`
	Why         json.RawMessage `json:"why"`
}

// unlisted is what is answered of a cell whose person, action or resource isn't listed.
var unlisted = &Answer{
	Advice: json.RawMessage("null"), Decision: json.RawMessage("null"), Obligations: json.RawMessage("null"),
	Status: json.RawMessage("null"), Why: json.RawMessage("null"),
}

// text is the answer as JSON.
func (a *Answer) text() string {
	return string(a.parts(nil, nil))
}

// parts is the answer as JSON, with the parts that names have.
func (a *Answer) parts(action, rest []byte) []byte {
	to := append([]byte("{"), action...)
	to = append(append(to, `"advice":`...), a.Advice...)
	to = append(append(to, `,"decision":`...), a.Decision...)
	to = append(append(to, `,"obligations":`...), a.Obligations...)
	to = append(to, rest...)
	to = append(append(to, `,"status":`...), a.Status...)
	return append(append(append(to, `,"why":`...), a.Why...), '}')
}

// decision is the word of the decision, or nothing of a cell that isn't listed.
func (a *Answer) decision() string { return strings.Trim(string(a.Decision), `"`) }

// Cell is a cell by its names, each as it stands between the quotes of JSON.
type Cell struct{ Person, Action, Resource string }

// line is the cell with an answer, as the program tells it.
func (c Cell) line(a *Answer) []byte {
	return a.parts([]byte(`"action":"`+c.Action+`",`), []byte(`,"person":"`+c.Person+`","resource":"`+c.Resource+`"`))
}

// Question is the line that asks the program for a cell.
func (c Cell) Question() []byte {
	return []byte(`{"do":"cell","action":"` + c.Action + `","person":"` + c.Person + `","resource":"` + c.Resource + `"}`)
}

// Digest is the SHA-256 of cells as the program tells them, each with a newline.
func Digest(cells []Cell, answers []*Answer) string {
	sum := sha256.New()
	for i, cell := range cells {
		sum.Write(append(cell.line(answers[i]), '\n'))
	}
	return hex.EncodeToString(sum.Sum(nil))
}

// ReadAnswer reads the reply to the question for a cell.
func ReadAnswer(reply []byte) (*Answer, error) {
	var said struct {
		Cell    *Answer
		Refused int
	}
	if err := json.Unmarshal(reply, &said); err != nil {
		return nil, fmt.Errorf("a cell is told as %.200s", reply)
	}
	switch {
	case said.Refused == 7:
		return unlisted, nil
	case said.Cell == nil || len(said.Cell.Why) == 0 || len(said.Cell.Decision) == 0:
		return nil, fmt.Errorf("a cell is told as %.200s", reply)
	}
	return said.Cell, nil
}
