package keys

import (
	"encoding/hex"
	"encoding/json"
	"errors"
	"fmt"
	"io"
	"os"

	"review-front/frame"
)

// Content is what is remembered, for another front of the same stream.
func (t *Table) Content() ([]byte, error) { return t.content(true) }

// Adopt has what another front remembers be what is read at the next start.
func (t *Table) Adopt(content []byte) error {
	file, err := t.folder.Replace(fileName, content)
	if err != nil {
		return fmt.Errorf("the keys: %w", err)
	}
	return file.Close()
}

// Recover reads the file, if there is one, and forgets the replies that tell of edits behind the journal's last. What a
// crash cut off is dropped, other damage is an error.
func (t *Table) Recover(last uint64) error {
	t.writing.Lock()
	defer t.writing.Unlock()
	file, err := os.Open(t.folder.Path(fileName))
	if errors.Is(err, os.ErrNotExist) {
		return nil
	}
	if err != nil {
		return fmt.Errorf("the keys: %w", err)
	}
	defer file.Close()
	if err := t.read(frame.NewReader(file, file.Name()), last); err != nil {
		return err
	}
	if err := t.rewrite(); err != nil {
		t.breaks(fmt.Errorf("the keys can't be written: %w", err))
	}
	return nil
}

// read remembers what a file says.
func (t *Table) read(records *frame.Reader, last uint64) error {
	t.mutex.Lock()
	defer t.mutex.Unlock()
	content, err := records.Next()
	var first head
	if err != nil || json.Unmarshal(content, &first) != nil || first.Kind != fileName || first.Format != format {
		return records.Damage("it doesn't begin with the head of the keys")
	}
	for {
		damage := records.Damage("a record isn't a reply to the next line of a body")
		content, err := records.Next()
		if err == io.EOF || errors.Is(err, frame.ErrTorn) {
			return nil
		}
		if err != nil {
			return err
		}
		var r record
		if err := json.Unmarshal(content, &r); err != nil {
			return damage
		}
		if r.Serial > last {
			continue
		}
		if !t.recall(r) {
			return damage
		}
	}
}

// recall remembers what a record says, and is false where it can't follow those before it.
func (t *Table) recall(r record) bool {
	b := &body{}
	if !unhex(b.key[:], r.Key) || !unhex(b.sum[:], r.Body) {
		return false
	}
	known := t.known[b.key]
	if isFirst := r.Line == 0 || r.Part > 0; isFirst && (known == nil || known.sum != b.sum || !known.awaits(r)) {
		if known != nil {
			t.leave(known) // it was forgotten, and came anew
		}
		t.known[b.key], known = b, b
	}
	if known == nil || known.sum != b.sum || !known.awaits(r) {
		return false
	}
	// Its bytes are counted when the file is written anew.
	if r.Part > 0 {
		t.refuse(known, &Refused{Number: r.Part, Reply: r.Reply, serial: r.Serial}, r.Time, 0)
	} else {
		t.add(known, reply{r.Reply, r.Serial}, r.Time, 0)
	}
	return true
}

// awaits says whether a record can be the next of a body.
func (b *body) awaits(r record) bool {
	if r.Part > 0 {
		return b.refused == nil
	}
	return len(b.replies) == r.Line
}

// unhex reads so many bytes.
func unhex(to []byte, written string) bool {
	if hex.DecodedLen(len(written)) != len(to) {
		return false
	}
	_, err := hex.Decode(to, []byte(written))
	return err == nil
}
