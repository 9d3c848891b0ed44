// Package changed keeps what each edit changed: which requests have another answer by it, with the decisions before and
// after, who made it and when, and where it stands in the journal. It stands beside the journal, in files of its own
// that are made again from there where they are missing: nothing rests on them.
//
// A file `changes-N` has the edits from serial N on. It begins with a head, and is records as package frame has them,
// one for each edit, in numbers: a name is written once in each file, so that each can be read, and taken away, by
// itself. One to which no more is added ends with a record that says where it ends.
package changed

import (
	"fmt"
	"time"

	"review-front/folder"
)

// Decision is one that the program tells, or None.
type Decision byte

// None is the decision of a request that isn't listed.
const None Decision = 0

// Permit is the decision that somebody may.
const Permit Decision = 1

// decisions has the words of decisions by their numbers, which are those in files.
var decisions = [...]string{
	"", "Permit", "Deny", "NotApplicable", "Indeterminate{P}", "Indeterminate{D}", "Indeterminate{DP}",
}

// ReadDecision is the decision of a word; none is that of nothing.
func ReadDecision(word string) (Decision, bool) {
	for i, known := range decisions {
		if known == word {
			return Decision(i), true
		}
	}
	return None, false
}

func (d Decision) String() string { return decisions[d] }

// append appends it as the program writes it.
func (d Decision) append(to []byte) []byte {
	if d == None {
		return append(to, "null"...)
	}
	to = append(to, '"')
	to = append(to, decisions[d]...)
	return append(to, '"')
}

// Change is a request whose answer is another one. Its names are written as they stand between the quotes of JSON.
type Change struct {
	Person, Action, Resource string
	Before, After            Decision
}

// Append appends it as the program tells it, with what else is to stand in the object: keys behind `before` in the
// order of their bytes, each with its comma, and such behind `resource`.
func (c Change) Append(to []byte, by, made string) []byte {
	to = append(append(append(to, `{"action":"`...), c.Action...), `","after":`...)
	to = append(c.After.append(to), `,"before":`...)
	to = append(append(c.Before.append(to), by...), `,"person":"`...)
	to = append(append(append(to, c.Person...), `","resource":"`...), c.Resource...)
	return append(append(append(to, '"'), made...), '}')
}

// Edit is an edit, and what it changed.
type Edit struct {
	Serial  uint64
	Time    time.Time
	By      string
	Do      string // its command
	Entity  string // of whom or what it speaks: a name, or the id of a document
	Journal uint64 // in which journal it stands, and from which byte on its record
	Byte    int64
	Count   uint64 // how many requests have another answer by it
	Known   bool   // whether it is known which
	form    form
	body    []byte
	names   []string
}

// Of is an edit of the journal, of which it isn't known which answers it changed, if it changed any.
func Of(entry folder.Entry) Edit {
	do, entity := about(entry.Line)
	return Edit{
		Serial: entry.Serial, Time: entry.Time, By: entry.By, Do: do, Entity: entity, Journal: entry.Journal,
		Byte: entry.Byte, Count: entry.Changes, Known: entry.Changes == 0,
	}
}

// form is how what an edit changed is written.
type form byte

const (
	unknown form = iota // nobody knows it any more
	plain
	deflated
	forms
)

// Range is the edits behind a serial, up to another one.
type Range struct {
	After uint64 `json:"since"`
	Last  uint64 `json:"until"`
}

// errForm says that a file isn't one of these.
func errForm(what string) error { return fmt.Errorf("what edits changed: %s", what) }
