package keys

import (
	"encoding/hex"
	"encoding/json"
	"errors"
	"fmt"
	"os"
	"time"

	"review-front/frame"
)

// The file of a folder of journals that has the keys. It begins with a head, and has a record for each reply.
//
// A reply is brought to the disk before the edit that it tells of, so that no edit is kept whose key isn't. Where the
// machine ends between the two, the reply's serial is behind the journal's end, and at the next start it doesn't count.
const (
	fileName = "keys"
	format   = 1
	// slack is how many bytes the file has that count no more before it is written anew, beside as many as do.
	slack = 1 << 20
)

// Folder is where the file stands.
type Folder interface {
	// Path is where a file of the folder stands.
	Path(name string) string
	// Replace has a file on disk with this content in the place of what was there, and gives it to be written on.
	Replace(name string, content []byte) (*os.File, error)
}

// head is the first record.
type head struct {
	Kind   string `json:"kind"`
	Format int    `json:"format"`
}

// record is a reply to a line of a body with a key.
type record struct {
	Time   time.Time       `json:"time"`
	Key    string          `json:"key"`    // of whom and which, as a checksum
	Body   string          `json:"body"`   // the checksum of the body
	Line   int             `json:"line"`   // which line it answers, from 0 on
	Serial uint64          `json:"serial"` // how many edits had been accepted
	Reply  json.RawMessage `json:"reply"`
	// Part says which edit it is, from 1 on, for which a body that is to be made all together isn't; else it is 0.
	Part int `json:"part,omitempty"`
}

// Told is a reply to the next line of a body. Of one that is to be made all together, and isn't, it is that to one of
// its edits, and Part is which, counted from 1.
type Told struct {
	Line   Line
	Reply  []byte
	Part   int
	Serial uint64    // how many edits had been accepted when it was given
	At     time.Time // when its line was appended to a stream; nothing where that is now
	body   *body     // nil where it isn't remembered
	bytes  int64
}

// written is the record of what a body was told.
func (b *body) written(told Told) ([]byte, error) {
	content, err := json.Marshal(record{
		Time: told.At, Key: hex.EncodeToString(b.key[:]), Body: hex.EncodeToString(b.sum[:]),
		Line: told.Line.number, Serial: told.Serial, Reply: told.Reply, Part: told.Part,
	})
	if err != nil {
		return nil, fmt.Errorf("the record of a key: %w", err)
	}
	return frame.Append(nil, content), nil
}

// Append remembers replies, and returns once they are on disk. After an error none of them counts, and nothing is
// remembered before Repair.
func (t *Table) Append(told []Told) error {
	t.writing.Lock()
	defer t.writing.Unlock()
	t.last = nil
	if len(told) == 0 {
		return nil
	}
	if err := t.Broken(); err != nil {
		return err
	}
	if err := t.append(told); err != nil {
		err = fmt.Errorf("the keys can't be written: %w", err)
		t.breaks(err)
		return err
	}
	return nil
}

func (t *Table) append(told []Told) error {
	if t.isDue() {
		if err := t.rewrite(); err != nil {
			return err
		}
	}
	records, err := t.records(told)
	if err != nil || len(records) == 0 {
		return err
	}
	if _, err := t.file.WriteAt(records, t.size); err != nil {
		return err
	}
	if err := t.file.Sync(); err != nil {
		return err
	}
	t.size += int64(len(records))
	t.last = told
	t.mutex.Lock()
	defer t.mutex.Unlock()
	for i := range told {
		t.remember(&told[i])
	}
	return nil
}

// isDue says whether the file is to be written anew.
func (t *Table) isDue() bool {
	t.mutex.Lock()
	defer t.mutex.Unlock()
	return t.file == nil || t.size > 2*t.live+slack
}

// records are those of replies, as far as they are to be remembered.
func (t *Table) records(told []Told) (records []byte, err error) {
	t.mutex.Lock()
	defer t.mutex.Unlock()
	lines, now := map[*body]int{}, time.Now().UTC()
	for i := range told {
		one := &told[i]
		if one.At.IsZero() {
			one.At = now
		} else if now.Sub(one.At) >= t.kept {
			continue // a stream is read again from long ago
		}
		if one.body = t.takes(*one, lines); one.body == nil {
			continue
		}
		record, err := one.body.written(*one)
		if err != nil {
			return nil, err
		}
		one.bytes = int64(len(record))
		records = append(records, record...)
	}
	return records, nil
}

// takes is the body by which a reply is to be remembered, where so many of its lines are about to have one; nil where
// it is no reply to the next line, or its key is another body's. A stream may bring a line again, and none of those
// before a line.
func (t *Table) takes(told Told, lines map[*body]int) *body {
	b := t.of(told.Line)
	if t.known[told.Line.key] == nil {
		b = &body{key: told.Line.key, sum: told.Line.sum}
		t.known[b.key] = b
	}
	switch {
	case b == nil:
		return nil
	case told.Part > 0 && b.refused == nil:
		return b
	case told.Part > 0 || told.Line.number != len(b.replies)+lines[b]:
		if lines[b] == 0 {
			t.drop(b)
		}
		return nil
	}
	lines[b]++
	return b
}

// remember remembers a reply that was appended.
func (t *Table) remember(told *Told) {
	switch b := told.body; {
	case b == nil:
	case t.known[b.key] != b:
		told.body = nil // it was forgotten meanwhile
	case told.Part > 0:
		t.refuse(b, &Refused{Number: told.Part, Reply: told.Reply, serial: told.Serial}, told.At, told.bytes)
	default:
		t.add(b, reply{told.Reply, told.Serial}, told.At, told.bytes)
	}
}

// Undo forgets what was appended last, since the edits that it tells of couldn't be kept. Nothing is remembered before
// Repair.
func (t *Table) Undo() {
	t.writing.Lock()
	defer t.writing.Unlock()
	if len(t.last) > 0 {
		t.breaks(errors.New("the keys have to be written anew"))
	}
	t.mutex.Lock()
	defer t.mutex.Unlock()
	for i := len(t.last) - 1; i >= 0; i-- {
		if t.last[i].body != nil {
			t.takeBack(t.last[i].body, t.last[i])
		}
	}
	t.last = nil
}

// Broken is why nothing can be remembered, or nil. While it isn't nil no edit may be accepted: its serial could be that
// of a reply which doesn't count.
func (t *Table) Broken() error {
	t.mutex.Lock()
	defer t.mutex.Unlock()
	return t.broken
}

// breaks says why nothing can be remembered, or that it can be again.
func (t *Table) breaks(why error) {
	t.mutex.Lock()
	defer t.mutex.Unlock()
	t.broken = why
}

// Repair tries whether the file can be written anew.
func (t *Table) Repair() error {
	t.writing.Lock()
	defer t.writing.Unlock()
	if t.Broken() == nil {
		return nil
	}
	if err := t.rewrite(); err != nil {
		return fmt.Errorf("the keys can't be written: %w", err)
	}
	t.breaks(nil)
	return nil
}

// rewrite writes the file anew, of what is remembered.
func (t *Table) rewrite() error {
	// All edits that these tell of are kept, so their serials don't matter any more.
	records, err := t.content(false)
	if err != nil {
		return err
	}
	file, err := t.folder.Replace(fileName, records)
	if err != nil {
		return err
	}
	if t.file != nil {
		t.file.Close()
	}
	t.file, t.size, t.last = file, int64(len(records)), nil
	return nil
}

// content is the file of what is remembered, with serials or not, and counts the bytes of its records.
func (t *Table) content(serials bool) ([]byte, error) {
	t.mutex.Lock()
	defer t.mutex.Unlock()
	t.forget(time.Now())
	first, err := json.Marshal(head{Kind: fileName, Format: format})
	if err != nil {
		return nil, err
	}
	records := frame.Append(nil, first)
	t.live = 0
	for _, b := range t.order {
		before := len(records)
		for _, told := range b.told() {
			if !serials {
				told.Serial = 0
			}
			told.At = b.latest
			record, err := b.written(told)
			if err != nil {
				return nil, err
			}
			records = append(records, record...)
		}
		b.bytes = int64(len(records) - before)
		t.live += b.bytes
	}
	return records, nil
}

// told is all that is remembered of a body.
func (b *body) told() (all []Told) {
	for number, reply := range b.replies {
		all = append(all, Told{Line: Line{number: number}, Reply: reply.body, Serial: reply.serial})
	}
	if b.refused != nil {
		all = append(all, Told{Part: b.refused.Number, Reply: b.refused.Reply, Serial: b.refused.serial})
	}
	return all
}

// Close closes the file.
func (t *Table) Close() {
	t.writing.Lock()
	defer t.writing.Unlock()
	if t.file != nil {
		t.file.Close()
		t.file = nil
	}
}
