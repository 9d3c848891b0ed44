// Package line reads as much of a line and of a reply as the front has to know: which command it is, whose session it
// names, whether an edit was accepted, and where a reply says a serial. Everything else is the program's.
package line

import (
	"encoding/json"
	"strconv"
)

// Limit is how many bytes a line has at most, without its newline.
const Limit = 1 << 20

// Ahead is how many lines somebody has on their way at a time who asks many.
const Ahead = 256

// Sessions is how many sessions the program has.
const Sessions = 16

// TooLong is what the program answers to a line of more bytes than Limit.
const TooLong = `{"refused":1}`

// NoMark is what the program answers to notices of a session that hasn't marked.
const NoMark = `{"refused":12}`

// Kind is what the front has to know of a command.
type Kind int

// The kinds of a line.
const (
	Question Kind = iota // neither of the others, also what the program refuses
	Edit                 // a command that changes what is held, if it is accepted
	Mark                 // marks the table for a session
	Notices              // asks what changed since a session's mark
	Changes              // asks what changed since a serial
	Report               // a question whose reply may be as long as the table or all that is held
	Light                // a question that takes hardly any time
)

// kinds has the commands that aren't questions. An edit that isn't here is journalled all the same, by its reply.
var kinds = map[string]Kind{
	"person.add": Edit, "person.drop": Edit,
	"action.add": Edit, "action.drop": Edit,
	"resource.add": Edit, "resource.drop": Edit,
	"policy.add": Edit, "policy.replace": Edit, "policy.withdraw": Edit,
	"root.set": Edit, "attr.set": Edit, "day.set": Edit, "moment.set": Edit,
	"mark": Mark, "notices": Notices, "changes": Changes,
	"table": Report, "by_rule": Report, "dump": Report,
	"counts": Light, "work": Light, "format": Light, "limits": Light, "state": Light,
	"documents": Report, "attributes": Report, "cells": Report, "faults": Report, "names": Report,
}

// Read says what kind of command a line is, for a mark or notices the session that it names, and for changes the
// serial. A line that isn't well formed is a question: the program refuses it. The last of several keys that are equal
// counts, as in the program.
func Read(l []byte) (Kind, uint64) {
	read, ok := keys(l)
	if !ok {
		return Question, 0
	}
	kind := kinds[read.do]
	var number uint64
	switch kind {
	case Mark, Notices:
		number, ok = sessionOf(read.session)
		ok = ok && read.since == nil
	case Changes:
		number, ok = serialOf(read.since)
		_, fits := sessionOf(read.session)
		ok = ok && fits
	default:
		return kind, 0
	}
	if read.others || !ok || !json.Valid(l) {
		return Question, 0
	}
	return kind, number
}

// serialOf reads a serial as the program does: a whole number of at most 63 bits.
func serialOf(written []byte) (uint64, bool) {
	number, err := strconv.ParseUint(string(written), 10, 63)
	return number, err == nil && strconv.FormatUint(number, 10) == string(written)
}

// names has the commands that list names, and take them from a list.
var names = map[string]bool{
	"person.add": true, "person.drop": true, "action.add": true, "action.drop": true, "resource.add": true,
	"resource.drop": true,
}

// IsName says whether a line lists a name, or takes it from a list.
func IsName(l []byte) bool {
	read, ok := keys(l)
	return ok && names[read.do]
}

// Command is which command a line names, or nothing where it isn't well formed.
func Command(l []byte) string {
	read, ok := keys(l)
	if !ok {
		return ""
	}
	return read.do
}

// sessionOf reads a session's number as the program does: a whole number from 0 to 15; absent it is 0.
func sessionOf(written []byte) (uint64, bool) {
	if written == nil {
		return 0, true
	}
	number, ok := serialOf(written)
	return number, ok && number < Sessions
}

// Marking is the line that marks the table for a session of the program.
func Marking(session int) []byte {
	return []byte(`{"do":"mark","session":` + strconv.Itoa(session) + `}`)
}

// Changing is the line that asks what changed since a serial.
func Changing(since uint64) []byte {
	return []byte(`{"do":"changes","since":` + strconv.FormatUint(since, 10) + `}`)
}
