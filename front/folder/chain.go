package folder

import (
	"bytes"
	"crypto/sha256"
	"encoding/hex"
	"encoding/json"
	"fmt"
	"io"
	"os"
	"time"
)

// Chain is a value that stands for all edits up to one: the SHA-256 of the value before it and of the edit, as the
// journal has it from its time on. Who has kept one can see that none of those edits was changed, whoever changed them.
// It goes on from one journal to the next, and a copy of the same edits has the same values.
type Chain [sha256.Size]byte

func (c Chain) String() string { return hex.EncodeToString(c[:]) }

// MarshalText writes it in hexadecimal digits.
func (c Chain) MarshalText() ([]byte, error) { return []byte(c.String()), nil }

// UnmarshalText reads it.
func (c *Chain) UnmarshalText(text []byte) error {
	if len(text) == 0 {
		*c = Chain{}
		return nil
	}
	read, err := hex.DecodeString(string(text))
	if err != nil || len(read) != len(c) {
		return fmt.Errorf("%q isn't the value of a chain", text)
	}
	copy(c[:], read)
	return nil
}

// follow moves the chain on behind an edit.
func (c *Chain) follow(edit []byte) {
	sum := sha256.New()
	sum.Write(c[:])
	sum.Write(edit)
	sum.Sum(c[:0])
}

// rawOf is the JSON of the one edit of a record, without what the record says of its place.
func rawOf(record []byte, chain string) []byte {
	at := bytes.Index(record, []byte(`,"chain":"`+chain+`",`))
	if chain == "" || at < 0 {
		return nil
	}
	at += len(`,"chain":"`) + len(chain) + len(`"`)
	raw := append([]byte(nil), record[at:]...)
	raw[0] = '{'
	return raw
}

// chainOf is what a chain begins with behind journals that have none.
func chainOf(older []Part) (c Chain) {
	if len(older) == 0 {
		return c
	}
	written, err := json.Marshal(older)
	if err != nil {
		return c
	}
	return sha256.Sum256(written)
}

// older are the journals that stand, each whole, of which the last one ends at a serial. None of them has a chain.
func older(path string, last uint64) ([]Part, error) {
	numbers, err := numbered(path, journalName)
	if err != nil {
		return nil, err
	}
	var all []Part
	for i, number := range numbers {
		if number > last {
			break // it has no edit
		}
		part := Part{Journal: number, Serial: last}
		if i+1 < len(numbers) && numbers[i+1] <= last {
			part.Serial = numbers[i+1] - 1
		}
		if err := part.read(named(path, journalName, number)); err != nil {
			return nil, err
		}
		all = append(all, part)
	}
	return all, nil
}

// read reads how long a file is, and its checksum.
func (p *Part) read(name string) error {
	file, err := os.Open(name)
	if err != nil {
		return fmt.Errorf("a journal: %w", err)
	}
	defer file.Close()
	sum := sha256.New()
	if p.Bytes, err = io.Copy(sum, file); err != nil {
		return fmt.Errorf("a journal: %w", err)
	}
	p.Sum = hex.EncodeToString(sum.Sum(nil))
	return nil
}

// follows moves the chain of a journal on behind edits. The first of a record says what that goes on from.
func (j *journal) follows(first bool, entries ...Entry) error {
	if j.head.Format < chainedFrom {
		return nil
	}
	for i, entry := range entries {
		if first && i == 0 && entry.chain != j.chain.String() || entry.raw == nil {
			return j.damage("what stands before it isn't what it was: serial %d was changed, or others stood behind it", j.last)
		}
		j.chain.follow(entry.raw)
	}
	return nil
}

// begins sees that a journal with a chain begins it as it has to, where that can be seen.
func (j *journal) begins() error {
	switch {
	case j.head.Format < chainedFrom:
		return nil
	case len(j.head.Older) > 0 && j.head.Chain != chainOf(j.head.Older),
		len(j.head.Older) == 0 && j.head.After == 0 && j.head.Chain != Chain{}:
		return j.damage("its chain doesn't begin as it has to")
	}
	j.chain = j.head.Chain
	return nil
}

// Head is the serial of the last edit that is on disk, and what the chain is behind it.
func (f *Folder) Head() (uint64, Chain) {
	f.mutex.Lock()
	defer f.mutex.Unlock()
	return f.last, f.chain
}

// ChainAt is what the chain is at the serial of a snapshot.
func (f *Folder) ChainAt(snapshot uint64) (Chain, error) {
	head, err := headOf(f.snapshot(snapshot), "snapshot")
	return head.Chain, err
}

// Begun is the serial before the first journal that has to stand, and what the chain is there.
func (f *Folder) Begun() (uint64, Chain) {
	first := f.First()
	if first == 0 {
		return 0, Chain{}
	}
	return first - 1, f.begunAt(first - 1)
}

// Made is when a snapshot was made, or no time.
func (f *Folder) Made(snapshot uint64) time.Time {
	head, err := headOf(f.snapshot(snapshot), "snapshot")
	if err != nil {
		return time.Time{}
	}
	return head.Time
}

// begunAt is what the chain is at a serial behind which the first journal begins.
func (f *Folder) begunAt(serial uint64) Chain {
	if head, err := headOf(f.journal(serial+1), "journal"); err == nil {
		return head.Chain
	}
	_, chain := f.Head()
	return chain
}

// chainBehind is what the chain is at the serial of a snapshot, or before a journal.
func (s *survey) chainBehind(serial uint64) Chain {
	for _, kind := range []string{"journal", "snapshot"} {
		name := named(s.path, snapshotName, serial)
		if kind == "journal" {
			name = named(s.path, journalName, serial+1)
		}
		if head, err := headOf(name, kind); err == nil && head.Format >= chainedFrom {
			return head.Chain
		}
	}
	return Chain{}
}
