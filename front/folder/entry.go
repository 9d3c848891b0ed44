package folder

import (
	"bytes"
	"encoding/json"
	"fmt"
	"strconv"
	"strings"
	"time"

	"review-front/frame"
	"review-front/limits"
)

// Format is the version of what stands in the files of a folder. Files of the first one are read too: their journals
// don't follow each other, and don't tell what was known to be on disk. From the third on records are a chain. Those of
// the fourth have records of campaigns between edits, and those of the fifth records of SCIM; a folder without any has
// files of the third.
const (
	Format        = 5
	first         = 1
	linkedFrom    = 2
	chainedFrom   = 3
	campaignFrom  = 4
	provisionFrom = 5
)

// Head is the first record of each file: what it is, and of which program.
type Head struct {
	// Kind is `journal` or `snapshot`.
	Kind             string    `json:"kind"`
	Format           int       `json:"format"` // the version of these files
	Time             time.Time `json:"time"`   // when the file was begun
	Program          string    `json:"program"`
	AttributeModules int       `json:"attribute_modules"`
	PolicyModules    int       `json:"policy_modules"`
	// Limits are those of the program; files of before there were any have none, and are of a standard one.
	Limits limits.Limits `json:"limits"`
	// Campaigns says, of a journal of the fifth format, that it may have records of campaigns, too.
	Campaigns bool `json:"campaigns,omitempty"`
	// Stream is of which stream the edits are, whose sequences are their serials; without one each serial follows the
	// last.
	Stream string `json:"stream,omitempty"`
	// After is, of a journal, the serial before its first edit, and of a snapshot that which it stands for.
	After uint64 `json:"after"`
	// Lines is, of a snapshot, how many lines it has.
	Lines int `json:"lines,omitempty"`
	// Records is, of a snapshot, how many lines of SCIM's resources follow these.
	Records int `json:"records,omitempty"`
	// Before is, of a journal, the one before it, and of a snapshot the journal that it was made of.
	Before *Part `json:"before,omitempty"`
	// Chain is, of a journal, what the first record goes on from, and of a snapshot that at its serial.
	Chain Chain `json:"chain,omitempty"`
	// Older, of the first journal with a chain, are those without one that stood before it, each whole.
	Older []Part `json:"older,omitempty"`
}

// goesOn says whether an edit may follow the one before it, with which it may have one record. In a stream stand edits
// that aren't accepted, too, and those that are made all together have one serial.
func (h Head) goesOn(last, serial uint64, together bool) bool {
	return serial == last+1 || h.Stream != "" && (serial > last || together && serial == last)
}

// Part is the beginning of a journal, up to an edit.
type Part struct {
	Journal uint64 `json:"journal"` // the number of the journal
	Serial  uint64 `json:"serial"`  // that of the edit
	Bytes   int64  `json:"bytes"`   // how long it is
	Sum     string `json:"sum"`     // its checksum, SHA-256
}

// Entry is an edit that was accepted.
type Entry struct {
	Time    time.Time
	By      string // who sent it, as far as the front knows
	Serial  uint64 // how many edits were accepted with it, since the folder was new; of a stream, its sequence there
	Changes uint64 // how many requests have another answer by it
	Line    []byte // the line as it was sent to the program
	// Together, of the first of several edits that are made all together, is how many these are. They have one record.
	Together int
	// Journal is the number of the journal in which it stands, and Byte where its record begins there.
	Journal uint64
	Byte    int64
	// synced is up to which byte its journal was known to be on disk when it was written.
	synced int64
	// chain, of the first of a record, is what that goes on from, and raw the edit's JSON.
	chain string
	raw   []byte
}

// campaigning begins the line of a record of a campaign, which is no edit: no program is told it. So does provisioning of
// a record of SCIM.
var (
	campaigning  = []byte(`{"do":"campaign.`)
	provisioning = []byte(`{"do":"scim.`)
)

// IsCampaign says whether this is a record of a campaign, and no edit.
func (e Entry) IsCampaign() bool { return bytes.HasPrefix(e.Line, campaigning) }

// IsProvision says whether this is a record of SCIM, and no edit.
func (e Entry) IsProvision() bool { return bytes.HasPrefix(e.Line, provisioning) }

// IsRecord says whether this is a record that no program is told.
func (e Entry) IsRecord() bool { return e.IsCampaign() || e.IsProvision() }

// formatOf is the format that a journal with some entries has at least, and whether a campaign is among them.
func formatOf(entries []Entry) (format int, campaigns bool) {
	format = chainedFrom
	for _, entry := range entries {
		campaigns = campaigns || entry.IsCampaign()
		if entry.IsProvision() {
			format = provisionFrom
		}
	}
	if campaigns && format < campaignFrom {
		format = campaignFrom
	}
	return format, campaigns
}

// hasCampaigns says whether a journal may have records of campaigns.
func (h Head) hasCampaigns() bool { return h.Format == campaignFrom || h.Campaigns }

// written is an entry as its record has it.
type written struct {
	Synced  int64           `json:"synced"`
	Chain   string          `json:"chain"`
	Time    time.Time       `json:"time"`
	By      string          `json:"by"`
	Serial  *uint64         `json:"serial"`
	Changes *uint64         `json:"changes"`
	Line    json.RawMessage `json:"line"`
	// Edits are those of a record of several.
	Edits []json.RawMessage `json:"edits"`
}

// Append appends the entry as JSON. The line stands in it as it was sent.
func (e Entry) Append(to []byte) []byte {
	by, err := json.Marshal(strings.ToValidUTF8(e.By, "\ufffd")) // so that what is read is written the same
	if err != nil {
		by = []byte(`""`)
	}
	to = append(to, `{"time":"`...)
	to = e.Time.UTC().AppendFormat(to, time.RFC3339Nano)
	to = append(to, `","by":`...)
	to = append(to, by...)
	to = append(to, `,"serial":`...)
	to = strconv.AppendUint(to, e.Serial, 10)
	to = append(to, `,"changes":`...)
	to = strconv.AppendUint(to, e.Changes, 10)
	to = append(to, `,"line":`...)
	to = append(to, bytes.Trim(e.Line, " \t\r\n")...)
	return append(to, '}')
}

// record appends the record of an edit, or of several that are made all together, in a journal that is known to be on
// disk up to a byte, and moves the chain on behind it.
func record(to []byte, entries []Entry, synced int64, chain *Chain) []byte {
	content := strconv.AppendInt([]byte(`{"synced":`), synced, 10)
	content = append(append(append(content, `,"chain":"`...), chain.String()...), '"')
	begin := len(content)
	if len(entries) == 1 {
		content = entries[0].Append(content)
		chain.follow(content[begin:])
		content[begin] = ','
		return frame.Append(to, content)
	}
	content = append(content, `,"edits":[`...)
	for i, entry := range entries {
		if i > 0 {
			content = append(content, ',')
		}
		begin := len(content)
		content = entry.Append(content)
		chain.follow(content[begin:])
	}
	return frame.Append(to, append(content, `]}`...))
}

// readEntries reads the edits of a record: one, or several that are made all together.
func readEntries(record []byte) ([]Entry, error) {
	var w written
	if err := json.Unmarshal(record, &w); err != nil {
		return nil, fmt.Errorf("a record isn't an edit: %w", err)
	}
	if len(w.Edits) == 0 {
		entry, err := w.entry()
		entry.chain, entry.raw = w.Chain, rawOf(record, w.Chain)
		return []Entry{entry}, err
	}
	entries := make([]Entry, 0, len(w.Edits))
	for _, raw := range w.Edits {
		one := written{}
		if err := json.Unmarshal(raw, &one); err != nil {
			return nil, fmt.Errorf("a record isn't an edit: %w", err)
		}
		one.Synced = w.Synced
		entry, err := one.entry()
		if err != nil {
			return nil, err
		}
		entry.raw = raw
		entries = append(entries, entry)
	}
	entries[0].chain = w.Chain
	if len(entries) > 1 {
		entries[0].Together = len(entries)
	}
	return entries, nil
}

// entry is an edit as it was written.
func (w written) entry() (Entry, error) {
	if w.Serial == nil || w.Changes == nil || len(w.Line) == 0 {
		return Entry{}, fmt.Errorf("a record isn't an edit: a key is missing")
	}
	return Entry{
		Time: w.Time, By: w.By, Serial: *w.Serial, Changes: *w.Changes, Line: w.Line, synced: w.Synced,
	}, nil
}

// readHead reads the first record of a file of a kind.
func readHead(records *frame.Reader, kind string) (Head, error) {
	record, err := records.Next()
	if err != nil {
		return Head{}, err
	}
	head := Head{Limits: limits.Standard}
	if err := json.Unmarshal(record, &head); err != nil || head.Kind != kind {
		return Head{}, records.Damage("it doesn't begin with the head of a " + kind)
	}
	if head.Format < first || head.Format > Format {
		what := fmt.Sprintf("its format is %d, and this program knows %d to %d", head.Format, first, Format)
		return Head{}, records.Damage(what)
	}
	return head, nil
}

func headRecord(head Head) ([]byte, error) {
	if head.Format < campaignFrom {
		head.Format = chainedFrom
	}
	head.Time = time.Now().UTC()
	record, err := json.Marshal(head)
	if err != nil {
		return nil, fmt.Errorf("the head of a file: %w", err)
	}
	return frame.Append(nil, record), nil
}
