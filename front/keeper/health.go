package keeper

import (
	"errors"
	"syscall"

	"review-front/replicated"
)

// Health is what somebody may want to look at while questions are answered.
type Health struct {
	// Edits says why edits get 503; it is nothing while they don't.
	Edits string `json:"edits,omitempty"`
	// Leader is the server that leads the stream, and Silent are those of which it hears nothing.
	Leader string              `json:"leader,omitempty"`
	Silent []replicated.Silent `json:"silent,omitempty"`
}

// Health tells it.
func (k *Keeper) Health() (now Health) {
	if k.streamed != nil {
		state := k.Stream.State()
		now.Leader, now.Silent = state.Leader, state.Silent
		if !state.Led {
			now.Edits = ErrUnled.Why
		}
	}
	if why := k.unkept.Load(); why != nil {
		now.Edits = *why
	}
	return now
}

// unkeeps says why edits can't be kept, or that they can be. Of a path nothing is told: whoever reaches the front may
// ask.
func (k *Keeper) unkeeps(err error) {
	if err == nil {
		k.unkept.Store(nil)
		return
	}
	why := ErrJournal.Why
	var cause syscall.Errno
	if errors.As(err, &cause) {
		why += ": " + cause.Error()
	}
	k.unkept.Store(&why)
}
