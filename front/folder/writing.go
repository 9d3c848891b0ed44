package folder

import (
	"crypto/sha256"
	"encoding/hex"
	"fmt"
	"os"
	"path/filepath"
)

// probeBytes is how much is written to see whether writing works again.
const probeBytes = 1 << 16

// Begin begins a journal behind the last edit, of a program as the head names it. Where it can't be written the
// folder is broken until Repair.
func (f *Folder) Begin(head Head) error {
	f.mutex.Lock()
	defer f.mutex.Unlock()
	f.head = head
	return f.begin()
}

// Rotate begins another journal, if the present one has an edit.
func (f *Folder) Rotate() error {
	f.mutex.Lock()
	defer f.mutex.Unlock()
	if f.broken != nil || f.last+1 == f.began {
		return nil
	}
	return f.begin()
}

// begin makes the journal of the next edit. One of that name has no edit, and is made anew. Only once it is on disk
// is it the present one: before that, edits go on into the other.
func (f *Folder) begin() error {
	head := f.head
	if f.current != nil && f.last+1 != f.began { // one without an edit is made anew, and isn't before itself
		f.before = f.part()
	}
	head.Kind, head.After, head.Before, head.Records = "journal", f.last, f.before, 0
	if !f.links {
		all, err := older(f.path, f.last)
		if err != nil {
			return f.unbegun(err)
		}
		head.Older, f.chain, f.links = all, chainOf(all), true
	}
	head.Chain, head.Format, head.Campaigns = f.chain, f.format, f.format >= provisionFrom && f.reviews
	record, err := headRecord(head)
	if err != nil {
		return err
	}
	file, err := f.make(f.last+1, record)
	if err != nil {
		f.links = f.links && len(head.Older) == 0
		return f.unbegun(err)
	}
	if f.current != nil {
		f.current.Close()
	}
	f.current, f.began, f.size, f.sum, f.broken = file, f.last+1, int64(len(record)), sha256.New(), nil
	f.sum.Write(record)
	return nil
}

// unbegun says why no journal was begun. Where there was none before nothing can be written.
func (f *Folder) unbegun(err error) error {
	if f.current == nil {
		f.broken = err
	}
	return err
}

// part is the present journal as far as it is on disk.
func (f *Folder) part() *Part {
	return &Part{Journal: f.began, Serial: f.last, Bytes: f.size, Sum: hex.EncodeToString(f.sum.Sum(nil))}
}

// make makes a journal that has this content, and says that it is the newest.
func (f *Folder) make(number uint64, content []byte) (*os.File, error) {
	name, first := f.journal(number), f.first
	if first == 0 {
		first = number
		if numbers, err := numbered(f.path, journalName); err == nil && len(numbers) > 0 {
			first = numbers[0]
		}
	}
	file, err := f.replace(name, content)
	if err == nil {
		if err = f.writeSpan(first, number); err != nil {
			file.Close()
		}
	}
	if err != nil {
		// Edits go on into the journal before: one of this name that has none of them may not stay.
		os.Remove(name)
		return nil, fmt.Errorf("a new journal: %w", err)
	}
	return file, nil
}

// Path is where a file of the folder stands.
func (f *Folder) Path(name string) string { return filepath.Join(f.path, name) }

// Replace has a file on disk with this content in the place of what was there, and gives it to be written on.
func (f *Folder) Replace(name string, content []byte) (*os.File, error) {
	return f.replace(f.Path(name), content)
}

// replace writes a file aside, renames it, and sees that both are on disk.
func (f *Folder) replace(name string, content []byte) (*os.File, error) {
	aside := name + asideName
	file, err := os.OpenFile(aside, os.O_CREATE|os.O_TRUNC|os.O_RDWR, 0o600)
	if err != nil {
		return nil, err
	}
	if _, err = file.Write(content); err == nil {
		err = file.Sync()
	}
	if err == nil {
		err = os.Rename(aside, name)
	}
	if err == nil {
		err = f.syncFolder()
	}
	if err != nil {
		file.Close()
		os.Remove(aside)
		return nil, err
	}
	return file, nil
}

// Append writes edits, whose serials follow the last one, and returns once they are on disk. After an error none of
// them counts, and nothing is appended before Repair.
func (f *Folder) Append(entries []Entry) error {
	f.mutex.Lock()
	defer f.mutex.Unlock()
	if f.broken != nil {
		return f.broken
	}
	if format, campaigns := formatOf(entries); format > chainedFrom && f.format < format || campaigns && !f.reviews {
		if err := f.beginFormat(format, campaigns); err != nil {
			return err
		}
	}
	var records []byte
	chain := f.chain
	for left := entries; len(left) > 0; {
		together := left[0].Together
		for i := 0; i == 0 || i < together; i++ {
			left[i].Journal, left[i].Byte = f.began, f.size+int64(len(records))
		}
		if together < 1 {
			together = 1
		}
		records, left = record(records, left[:together], f.size, &chain), left[together:]
	}
	_, err := f.current.WriteAt(records, f.size)
	if err == nil {
		err = f.sync(f.current)
	}
	if err != nil {
		// What was written of them isn't to be there after a crash; if it can't be taken away now, Repair does it.
		_ = f.current.Truncate(f.size)
		f.broken = fmt.Errorf("the journal can't be written: %w", err)
		return f.broken
	}
	f.sum.Write(records)
	f.size += int64(len(records))
	f.last, f.chain = entries[len(entries)-1].Serial, chain
	return nil
}

// beginFormat begins a journal that may have records of campaigns, or of SCIM: what doesn't know them is to stop at it.
func (f *Folder) beginFormat(format int, campaigns bool) error {
	before, were := f.format, f.reviews
	if format > f.format {
		f.format = format
	}
	f.reviews = f.reviews || campaigns
	if err := f.begin(); err != nil {
		f.format, f.reviews = before, were
		f.broken = fmt.Errorf("a journal of format %d can't be begun: %w", format, err)
		return f.broken
	}
	return nil
}

// Broken is why nothing can be written, or nil.
func (f *Folder) Broken() error {
	f.mutex.Lock()
	defer f.mutex.Unlock()
	return f.broken
}

// Repair tries whether writing works again, and takes away what stands behind the last edit that counts.
func (f *Folder) Repair() error {
	f.mutex.Lock()
	defer f.mutex.Unlock()
	if f.broken == nil {
		return nil
	}
	if f.current == nil {
		return f.begin()
	}
	if err := f.probe(); err != nil {
		return fmt.Errorf("the journal can't be written: %w", err)
	}
	f.broken = nil
	return nil
}

func (f *Folder) probe() error {
	if err := f.current.Truncate(f.size); err != nil {
		return err
	}
	_, wrote := f.current.WriteAt(make([]byte, probeBytes), f.size)
	if wrote == nil {
		wrote = f.sync(f.current)
	}
	if err := f.current.Truncate(f.size); err != nil {
		return err
	}
	if wrote != nil {
		return wrote
	}
	return f.current.Sync()
}
