package folder

import (
	"crypto/sha256"
	"encoding/hex"
	"errors"
	"fmt"
	"hash"
	"io"
	"os"

	"review-front/frame"
)

// journal is what the reading of a journal gave.
type journal struct {
	name   string
	number uint64
	head   Head
	last   uint64 // the serial of its last sound edit, or that before it
	size   int64  // where that ends
	synced int64  // up to which byte it is known to have been on disk
	sum    hash.Hash
	chain  Chain // what it is behind that edit, if it has one
	unread bool  // whether the bytes behind it are no record
}

// part is what was read of it.
func (j *journal) part() *Part {
	return &Part{Journal: j.number, Serial: j.last, Bytes: j.size, Sum: hex.EncodeToString(j.sum.Sum(nil))}
}

// damage is damage behind what was read.
func (j *journal) damage(what string, about ...any) error {
	return &frame.Damage{File: j.name, Place: j.size, What: fmt.Sprintf(what, about...)}
}

// Place is where a record stands.
type Place struct {
	File string
	Byte int64
}

func (p Place) String() string { return fmt.Sprintf("%s, byte %d", p.File, p.Byte) }

// errEnough ends a reading that has what it was for.
var errEnough = errors.New("no more is needed")

// walk reads a journal up to so many bytes, and calls for each edit. What it gives was sound, also where there is an
// error: frame.ErrTorn where it ends within a record, and frame.Damage where the next one isn't sound.
func walk(path string, number uint64, most int64, call func(*journal, Entry, Place) error) (*journal, error) {
	j := &journal{name: named(path, journalName, number), number: number, last: number - 1, sum: sha256.New()}
	file, err := os.Open(j.name)
	if err != nil {
		return j, fmt.Errorf("a journal: %w", err)
	}
	defer file.Close()
	records := frame.NewReader(io.LimitReader(file, most), j.name)
	records.Copy(j.sum)
	j.head, err = readHead(records, "journal")
	if err == io.EOF {
		err = frame.ErrTorn // without a head
	}
	if err != nil {
		return j, err
	}
	if j.head.After != number-1 {
		return j, j.damage("its head has another serial than its name")
	}
	if err := j.begins(); err != nil {
		return j, err
	}
	for j.size, j.synced = records.Place(), records.Place(); ; j.size = records.Place() {
		record, err := records.Next()
		if err == io.EOF {
			return j, nil
		}
		if err != nil {
			j.unread = true
			return j, err
		}
		entries, err := readEntries(record)
		if err != nil {
			return j, j.damage("%v", err)
		}
		place := Place{File: j.name, Byte: j.size}
		for i, entry := range entries {
			if !j.head.goesOn(j.last, entry.Serial, i > 0) {
				return j, j.damage("serial %d follows %d", entry.Serial, j.last)
			}
			// Those of a stream that are made all together have one serial, and the chain is known behind all of them.
			if j.head.Stream == "" {
				err = j.follows(i == 0, entry)
			} else if i == 0 {
				err = j.follows(true, entries...)
			}
			if err != nil {
				return j, err
			}
			if err := j.next(entry, place, records.Place(), call); err != nil {
				return j, err
			}
		}
	}
}

// next takes an edit of a record that stands at a place and ends at a byte.
func (j *journal) next(entry Entry, place Place, end int64, call func(*journal, Entry, Place) error) error {
	if entry.synced > place.Byte {
		return j.damage("it is written as if more had been on disk")
	}
	entry.Journal, entry.Byte = j.number, place.Byte
	j.last, j.size = entry.Serial, end
	if entry.synced > j.synced {
		j.synced = entry.synced
	}
	if call == nil {
		return nil
	}
	return call(j, entry, place)
}

// partOf is a journal up to an edit, which is on disk, and what the chain is there.
func partOf(path string, serial uint64, most func(number uint64) int64) (*Part, Chain, error) {
	numbers, err := numbered(path, journalName)
	if err != nil {
		return nil, Chain{}, err
	}
	for i := len(numbers) - 1; i >= 0; i-- {
		if numbers[i] > serial {
			continue
		}
		j, err := walk(path, numbers[i], most(numbers[i]), func(j *journal, entry Entry, _ Place) error {
			if entry.Serial == serial {
				return errEnough
			}
			return nil
		})
		if err != nil && err != errEnough {
			return nil, Chain{}, err
		}
		if j.last != serial {
			return nil, Chain{}, j.damage("it ends before serial %d", serial)
		}
		return j.part(), j.chain, nil
	}
	return nil, Chain{}, nil
}
