package changed

import (
	"fmt"
	"os"
	"path/filepath"
	"sort"
	"sync"
	"time"

	"review-front/folder"
)

// partBytes is from how many bytes on another file is begun: one that is read, or made again, is soon read.
const partBytes = 1 << 17

// parts is into how many files what is kept is divided at least, where it isn't kept for ever.
const parts = 8

// Book is the files of a folder. One goroutine writes, any number read.
type Book struct {
	path  string
	keep  time.Duration // how long what edits changed is kept; 0: for ever
	mutex sync.Mutex
	parts []*part // by their edits
	open  *writing
}

// writing is the file that edits are added to.
type writing struct {
	*part
	file  *os.File
	names *names
	edit  Edit // the last one
}

// Open reads which files there are. What isn't sound is dropped, and so is what the journal says otherwise: `is` says
// whether it has an edit, or is silent of it. It gives what was dropped.
func Open(path string, keep time.Duration, is func(Edit) bool) (*Book, []error) {
	b := &Book{path: path, keep: keep}
	dropped := b.list()
	for i := len(b.parts) - 1; i >= 0; i-- {
		p := b.parts[i]
		last, place, known, err := p.read(p.size, func(*Edit) error { return nil })
		if err == nil && last.Serial > p.after && is(last) && (p.closed || i+1 == len(b.parts)) {
			if !p.closed {
				err = b.resume(p, last, place, known)
			}
			if err == nil {
				break // those before it were once behind the same edits
			}
		}
		dropped = append(dropped, b.mend(p, last, place, err, is))
	}
	b.parts = b.sound()
	return b, dropped
}

// list finds the files.
func (b *Book) list() (dropped []error) {
	found, err := filepath.Glob(filepath.Join(b.path, folder.ChangesName+"*"))
	if err != nil {
		return []error{err}
	}
	for _, name := range found {
		if len(filepath.Base(name)) != len(folder.ChangesName)+digits {
			continue
		}
		p, err := known(name)
		if err != nil {
			_ = os.Remove(name)
			dropped = append(dropped, err)
			continue
		}
		b.parts = append(b.parts, p)
	}
	sort.Slice(b.parts, func(i, j int) bool { return b.parts[i].after < b.parts[j].after })
	return dropped
}

// resume has edits be added to a file behind its last sound one.
func (b *Book) resume(p *part, last Edit, place int64, known []string) error {
	file, err := os.OpenFile(p.name, os.O_RDWR, 0)
	if err != nil {
		return err
	}
	if err := file.Truncate(place); err != nil {
		file.Close()
		return err
	}
	p.last, p.ends, p.size = last.Serial, last.Time, place
	n := &names{numbers: map[string]uint64{}}
	for i, name := range known {
		n.numbers[name] = uint64(i)
	}
	b.open = &writing{part: p, file: file, names: n, edit: last}
	return nil
}

// mend leaves of a file what is sound and as the journal has it, if it is anything, and says why.
func (b *Book) mend(p *part, last Edit, place int64, why error, is func(Edit) bool) error {
	if why == nil && !p.closed {
		why = errForm(p.name + " was cut off")
	}
	if last.Serial > p.after && is(last) {
		if err := p.end(last, place); err == nil {
			return why
		}
	}
	_ = os.Remove(p.name)
	p.last = p.after
	if why == nil {
		why = errForm(p.name + " is of another journal")
	}
	return why
}

// end ends a file behind an edit.
func (p *part) end(last Edit, place int64) error {
	file, err := os.OpenFile(p.name, os.O_RDWR, 0)
	if err != nil {
		return err
	}
	defer file.Close()
	if err := file.Truncate(place); err != nil {
		return err
	}
	return p.close(file, last, place)
}

// close writes the end of a file, and sees that it is on disk.
func (p *part) close(file *os.File, last Edit, place int64) error {
	written := ended(last.Serial, last.Time)
	if _, err := file.WriteAt(written, place); err != nil {
		return err
	}
	if err := file.Sync(); err != nil {
		return err
	}
	p.last, p.ends, p.size, p.closed = last.Serial, last.Time, place+int64(len(written)), true
	return nil
}

// sound leaves the files that have edits, each behind the one before.
func (b *Book) sound() (sound []*part) {
	for _, p := range b.parts {
		switch {
		case len(sound) > 0 && p.after < sound[len(sound)-1].last || p.last <= p.after && (b.open == nil || p != b.open.part):
			_ = os.Remove(p.name)
		default:
			sound = append(sound, p)
		}
	}
	return sound
}

// Missing is behind which serial the first edits stand, of those behind one and up to another, of which nothing is
// kept.
func (b *Book) Missing(after, last uint64) (uint64, bool) {
	b.mutex.Lock()
	defer b.mutex.Unlock()
	for _, p := range b.parts {
		if p.after <= after && p.last > after {
			after = p.last
		}
	}
	return after, after < last
}

// Has says whether something is kept of an edit.
func (b *Book) Has(serial uint64) bool {
	b.mutex.Lock()
	defer b.mutex.Unlock()
	for _, p := range b.parts {
		if p.after < serial && serial <= p.last {
			return true
		}
	}
	return false
}

// Pack begins to take what an edit changed that stands behind another one.
func (b *Book) Pack(edit Edit, after uint64) (*Pack, error) {
	if err := b.begin(edit, after); err != nil {
		return nil, err
	}
	p := &Pack{book: b, edit: edit}
	p.told.call = p.add
	return p, nil
}

// Unlearned says that nobody knows which answers the edit changed.
func (p *Pack) Unlearned() {
	p.book.open.names.drop()
	p.edit.Known, p.ended, p.body = false, false, nil
}

// Drop forgets what came.
func (p *Pack) Drop() { p.book.open.names.drop() }

// Keep writes the edit.
func (p *Pack) Keep() error {
	if p.edit.Known = p.edit.Known || p.ended; p.edit.Known && p.many != p.edit.Count {
		p.Drop()
		return errForm(fmt.Sprintf("edit %d changed %d answers, and %d are told", p.edit.Serial, p.edit.Count, p.many))
	}
	return p.book.add(p.edit, p.body)
}

// begin sees that there is a file for an edit behind another one.
func (b *Book) begin(edit Edit, after uint64) error {
	b.mutex.Lock()
	defer b.mutex.Unlock()
	if w := b.open; w != nil {
		old := b.keep > 0 && edit.Time.Sub(w.begins) > b.keep/parts
		if w.edit.Serial == after && (w.size < partBytes && !old) || w.edit.Serial == edit.Serial {
			return nil
		}
		if err := b.leave(); err != nil {
			return err
		}
	}
	first, err := headOf(edit, after)
	if err != nil {
		return err
	}
	name := filepath.Join(b.path, fmt.Sprintf("%s%0*d", folder.ChangesName, digits, after+1))
	file, err := os.OpenFile(name, os.O_CREATE|os.O_TRUNC|os.O_RDWR, 0o600)
	if err != nil {
		return err
	}
	if _, err := file.Write(first); err != nil {
		file.Close()
		os.Remove(name)
		return err
	}
	p := &part{name: name, after: after, last: after, begins: edit.Time, ends: edit.Time, size: int64(len(first))}
	b.open = &writing{
		part: p, file: file, names: &names{numbers: map[string]uint64{}}, edit: Edit{Serial: after, Time: edit.Time.UTC()},
	}
	b.parts = append(b.parts, p)
	sort.Slice(b.parts, func(i, j int) bool { return b.parts[i].after < b.parts[j].after })
	return nil
}

// leave adds no more to the file that edits are added to. One without an edit goes.
func (b *Book) leave() error {
	w := b.open
	b.open = nil
	defer w.file.Close()
	if w.last > w.after {
		return w.part.close(w.file, w.edit, w.size)
	}
	for i, p := range b.parts {
		if p == w.part {
			b.parts = append(b.parts[:i:i], b.parts[i+1:]...)
		}
	}
	return os.Remove(w.name)
}

// Close sees that all is on disk, and writes no more.
func (b *Book) Close() error {
	b.mutex.Lock()
	defer b.mutex.Unlock()
	if b.open == nil {
		return nil
	}
	err := b.open.file.Sync()
	b.open.file.Close()
	b.open = nil
	return err
}

// Trim takes away the files whose edits all were made before a time.
func (b *Book) Trim(before time.Time) error {
	b.mutex.Lock()
	defer b.mutex.Unlock()
	for len(b.parts) > 0 && b.parts[0].closed && b.parts[0].ends.Before(before) {
		if err := os.Remove(b.parts[0].name); err != nil && !os.IsNotExist(err) {
			return err
		}
		b.parts = b.parts[1:]
	}
	return nil
}
