package scim

import (
	"bytes"
	"encoding/json"
	"fmt"
	"strings"
	"time"
)

// The commands of records.
const (
	Create = "scim.create"
	Write  = "scim.write"
	Delete = "scim.delete"
	Hold   = "scim.hold"
	LetOn  = "scim.let"
)

// Prefix begins the line of each record, and that of no edit which the program takes.
const Prefix = `{"do":"scim.`

// Record is a record of the journal, as its line has it.
type Record struct {
	Do   string `json:"do"`
	Kind string `json:"type,omitempty"` // User or Group
	ID   string `json:"id,omitempty"`
	// Of is the serial of the resource that is changed, as it was when this was made of it.
	Of uint64 `json:"of,omitempty"`
	// Key is the resource's name, and Active whether a user's account is in use.
	Key      string          `json:"key,omitempty"`
	Active   bool            `json:"active,omitempty"`
	Resource json.RawMessage `json:"resource,omitempty"`
	// Clear says that all members of a group go first; Add comes and Drop goes.
	Clear bool     `json:"clear,omitempty"`
	Add   []string `json:"add,omitempty"`
	Drop  []string `json:"drop,omitempty"`
	// Most, if there is one, is how many of a hundred people may go within a while, in seconds, before that is held.
	Most   *float64 `json:"most,omitempty"`
	Within int      `json:"within,omitempty"`
	Why    string   `json:"why,omitempty"` // why provisioning is held
	// Front is the front that made it, of several.
	Front string `json:"front,omitempty"`

	// Serial, Time and By are of its place in the journal.
	Serial uint64    `json:"-"`
	Time   time.Time `json:"-"`
	By     string    `json:"-"`
}

// IsRecord says whether a line of the journal is that of a record.
func IsRecord(line []byte) bool { return bytes.HasPrefix(line, []byte(Prefix)) }

// Read reads the line of a record.
func Read(line []byte) (*Record, error) {
	r := &Record{}
	if err := json.Unmarshal(line, r); err != nil {
		return nil, fmt.Errorf("a record of SCIM: %w", err)
	}
	if !strings.HasPrefix(r.Do, "scim.") {
		return nil, fmt.Errorf("a record of SCIM has the command %q", r.Do)
	}
	return r, nil
}

// Line is the record as a line.
func (r *Record) Line() ([]byte, error) { return lineOf(r) }

// lineOf is something as JSON on one line.
func lineOf(of any) ([]byte, error) {
	var to bytes.Buffer
	writing := json.NewEncoder(&to)
	writing.SetEscapeHTML(false)
	if err := writing.Encode(of); err != nil {
		return nil, fmt.Errorf("a record of SCIM: %w", err)
	}
	return bytes.TrimSuffix(to.Bytes(), []byte("\n")), nil
}
