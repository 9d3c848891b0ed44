// Package replicated says what the front wants of a replicated log: that several fronts append edits to it in one
// order, and that each of them reads all of them in that order.
package replicated

import (
	"context"
	"errors"
	"fmt"
	"time"
)

// Edit is an edit on its way to a stream, or in it.
type Edit struct {
	ID   string // by which it is known to be the same one when it is sent again
	By   string // who sent it
	Line []byte
	// Whole says that it is several edits, a line each, which are made all together or not at all.
	Whole bool
	// Key says which line of which body with a key it is, or its first; it is nothing where it came with none.
	Key string
	// Sequence is its place in the stream, counted from 1 without a gap; 0 before it was appended.
	Sequence uint64
	// Time is when it was appended, as the stream says.
	Time time.Time
}

// Extent is what a stream has.
type Extent struct {
	Name  string // of the stream, and of which time: another one of the same name has another
	First uint64 // the sequence of the first edit that is still there; that of the next one where none is
	Last  uint64 // that of the last; 0 where there was none yet
}

// Sum is the checksum of a front's dump behind the edit of a sequence.
type Sum struct {
	Front    string `json:"front"`
	Sequence uint64 `json:"sequence"`
	Sum      string `json:"sum"`
}

// Moved says that an edit isn't appended since it would stand behind another one than it was to.
type Moved struct{ Last uint64 }

func (m *Moved) Error() string { return fmt.Sprintf("the last sequence is %d", m.Last) }

var (
	// ErrUnsure says that nobody knows whether an edit is appended: it may be, later too.
	ErrUnsure = errors.New("it may be appended")
	// ErrAway says that the stream can't be reached, and an edit isn't appended.
	ErrAway = errors.New("the stream can't be reached")
)

// State is what is known of the servers of a stream.
type State struct {
	Led    bool   // whether one leads it: else none takes edits
	Leader string // its name; nothing where that isn't known, or the stream has one server alone
	Silent []Silent
}

// Silent is a server of which the one that leads hears nothing.
type Silent struct {
	Server string    `json:"server"`
	Since  time.Time `json:"since"`
	Why    string    `json:"why,omitempty"` // what was found out, in words
}

// Log is a replicated log of edits.
type Log interface {
	// Append appends an edit right behind a sequence, and gives its own; of one that is there already, by its id,
	// that. It is a Moved where that isn't the last one, ErrUnsure and ErrAway as they say. `sent` is called once, as
	// soon as another one can be sent behind it.
	Append(ctx context.Context, behind uint64, edit Edit, sent func()) (uint64, error)
	// Read hands out all edits behind a sequence, each once and in order, until the context is done or one can't be
	// had.
	Read(ctx context.Context, behind uint64, take func(Edit) error) error
	// Extent is what the stream has now.
	Extent(ctx context.Context) (Extent, error)
	// Tell tells all fronts of the stream a checksum, and Hear calls for each that is told, until it is told to stop.
	// None is kept for who doesn't hear now.
	Tell(sum Sum) error
	Hear(call func(Sum)) (stop func(), err error)
	// State is what is known now of the servers.
	State() State
	// Close ends the connection.
	Close()
}
