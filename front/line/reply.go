package line

import (
	"bytes"
	"strconv"
)

// Accepted is what the reply to an accepted edit says.
type Accepted struct {
	Changes uint64 // how many requests have another answer than before
	Serial  uint64 // how many edits were accepted so far
}

// The beginnings of replies that say a serial, and of some that the front looks at. Replies have fixed keys in a
// fixed order, so each tells the reply.
var (
	changes     = []byte(`{"changes":`)
	serial      = []byte(`,"serial":`)
	marked      = []byte(`{"mark":`)
	state       = []byte(`{"state":`)
	told        = []byte(`{"notices":`)
	listed      = []byte(`{"changes":[`)
	refused     = []byte(`{"refused":`)
	sub         = []byte(`,"sub":`)
	evaluations = []byte(`{"evaluations":`)
)

// ReadAccepted reads the reply to an edit, and is false for every other reply.
func ReadAccepted(reply []byte) (Accepted, bool) {
	rest, ok := after(reply, changes)
	if !ok {
		return Accepted{}, false
	}
	count, rest, ok := number(rest)
	if !ok {
		return Accepted{}, false
	}
	if rest, ok = after(rest, serial); !ok {
		return Accepted{}, false
	}
	at, rest, ok := number(rest)
	return Accepted{Changes: count, Serial: at}, ok && string(rest) == "}"
}

// Reply is the reply that says so.
func (a Accepted) Reply() []byte {
	reply := append([]byte(nil), changes...)
	reply = strconv.AppendUint(reply, a.Changes, 10)
	reply = append(reply, serial...)
	reply = strconv.AppendUint(reply, a.Serial, 10)
	return append(reply, '}')
}

// ReadMark reads the serial in the reply to a mark.
func ReadMark(reply []byte) (uint64, bool) { return only(reply, marked) }

// MarkReply is the reply to a mark.
func MarkReply(at uint64) []byte { return one(marked, at) }

// ReadEvaluations reads the count in the reply to `work`, where it fits 64 bits.
func ReadEvaluations(reply []byte) (uint64, bool) { return only(reply, evaluations) }

// EvaluationsReply is the reply to `work`.
func EvaluationsReply(count uint64) []byte { return one(evaluations, count) }

// IsNotices says whether a reply lists notices.
func IsNotices(reply []byte) bool { return bytes.HasPrefix(reply, told) }

// IsChanges says whether a reply lists what changed since a serial.
func IsChanges(reply []byte) bool { return bytes.HasPrefix(reply, listed) }

// AsNotices has the beginning of a reply to `changes` be that of one to `notices`: they are as long, and the rest
// stays.
func AsNotices(reply []byte) { copy(reply, told) }

// SerialBytes is how long the end of a reply is at most that says a serial.
const SerialBytes = len(`,"serial":18446744073709551615}`)

// CutSerial is the end of a reply to `changes` without its serial: as that to `notices` ends. What is given is the
// reply or its last bytes, of which it says how many stay and what stands behind them.
func CutSerial(end []byte) (stay int, behind []byte, ok bool) {
	at, _, ok := serialAt(end)
	return at, []byte("}"), ok
}

// RenumberSerial is the end of a reply to `changes` with the number that stands for its serial, as CutSerial has it.
func RenumberSerial(end []byte, of func(serial uint64) uint64) (stay int, behind []byte, ok bool) {
	at, n, ok := serialAt(end)
	return at, append(strconv.AppendUint(append([]byte(nil), serial...), of(n), 10), '}'), ok
}

// serialAt is where the serial at the end of a reply begins, and what it is.
func serialAt(end []byte) (at int, n uint64, ok bool) {
	if at = bytes.LastIndex(end, serial); at < 0 {
		return 0, 0, false
	}
	n, ok = only(end[at:], serial)
	return at, n, ok
}

// ReadRefusal reads the number of a refusal, and its sub-code, which is 0 where there is none.
func ReadRefusal(reply []byte) (refusal, subcode int, ok bool) {
	rest, ok := after(reply, refused)
	if !ok {
		return 0, 0, false
	}
	n, rest, ok := number(rest)
	if !ok {
		return 0, 0, false
	}
	if behind, has := after(rest, sub); has {
		var code uint64
		if code, rest, ok = number(behind); !ok {
			return 0, 0, false
		}
		subcode = int(code)
	}
	return int(n), subcode, string(rest) == "}"
}

// noMemory is the refusal that says that there was no memory: the same line may be accepted later.
const noMemory = 15

// NoMemory says whether a reply refuses a line for want of memory.
func NoMemory(reply []byte) bool {
	number, _, ok := ReadRefusal(reply)
	return ok && number == noMemory
}

// Renumber has another number stand for each serial that a reply says: of `mark`, of an accepted edit, and of
// `state`. Other replies stay as they are.
func Renumber(reply []byte, of func(serial uint64) uint64) []byte {
	if at, ok := ReadMark(reply); ok {
		return MarkReply(of(at))
	}
	if edit, ok := ReadAccepted(reply); ok {
		edit.Serial = of(edit.Serial)
		return edit.Reply()
	}
	if bytes.HasPrefix(reply, state) {
		return renumberKeys(reply, of)
	}
	return reply
}

// renumberKeys does so with the number at each key `serial`. In a text of the reply its quotes would be escaped, so
// that what is found is a key.
func renumberKeys(reply []byte, of func(uint64) uint64) []byte {
	key := serial[1:]
	shifted := make([]byte, 0, len(reply)+32)
	for {
		at := bytes.Index(reply, key)
		if at < 0 {
			return append(shifted, reply...)
		}
		at += len(key)
		shifted = append(shifted, reply[:at]...)
		reply = reply[at:]
		if n, rest, ok := number(reply); ok {
			shifted = strconv.AppendUint(shifted, of(n), 10)
			reply = rest
		}
	}
}

func only(reply, before []byte) (uint64, bool) {
	rest, ok := after(reply, before)
	if !ok {
		return 0, false
	}
	n, rest, ok := number(rest)
	return n, ok && string(rest) == "}"
}

func one(before []byte, n uint64) []byte {
	reply := append([]byte(nil), before...)
	return append(strconv.AppendUint(reply, n, 10), '}')
}

func after(reply, before []byte) ([]byte, bool) {
	if !bytes.HasPrefix(reply, before) {
		return nil, false
	}
	return reply[len(before):], true
}

// number reads the digits at the beginning of some bytes.
func number(from []byte) (uint64, []byte, bool) {
	end := 0
	for end < len(from) && from[end] >= '0' && from[end] <= '9' {
		end++
	}
	n, err := strconv.ParseUint(string(from[:end]), 10, 64)
	return n, from[end:], err == nil
}
