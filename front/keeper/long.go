package keeper

import (
	"bytes"
	"context"
	"io"
	"strings"
	"time"

	"review-front/line"
	"review-front/spool"
)

// ErrSpool says that a reply is too long to be kept until it is read.
var ErrSpool = &Unavailable{Why: "the reply can't be kept until it is read", After: 5 * time.Second}

// Reply is what comes back.
type Reply struct {
	Body   []byte      // the reply of the program, without its newline; where there is a rest, its beginning
	Rest   *spool.File // of a long one what stands in a file, until Drop
	Serial uint64      // how many edits had been accepted when the program gave it
	Err    error       // why there is none; an *Unavailable, or that of the context
}

// WriteTo writes a reply, and gives back what it had.
func (r Reply) WriteTo(to io.Writer) (int64, error) {
	defer r.Drop()
	if r.Rest == nil {
		n, err := to.Write(append(r.Body, '\n'))
		return int64(n), err
	}
	return io.Copy(to, io.MultiReader(bytes.NewReader(r.Body), r.Rest.Reader(), strings.NewReader("\n")))
}

// Drop gives back what a reply had that isn't written.
func (r Reply) Drop() {
	if r.Rest != nil {
		r.Rest.Close()
	}
}

// IsLong says whether the reply may be as long as the table, and waits in a file.
func (c *Call) IsLong() bool { return !c.own && isLong(c.kind) }

func isLong(kind line.Kind) bool {
	return kind == line.Report || kind == line.Notices || kind == line.Changes
}

// IsLong says whether the reply to a line may be as long as the table.
func IsLong(l []byte) bool {
	kind, _ := line.Read(l)
	return isLong(kind)
}

// turn waits until it is known what a line asks, and of a long reply until no other is due, and there is room to keep
// one: others come between two of them.
func (k *Keeper) turn(ctx context.Context, call *Call) error {
	if err := call.known(ctx); err != nil || !call.IsLong() {
		return err
	}
	select {
	case k.long <- struct{}{}:
	case <-ctx.Done():
		return ctx.Err()
	}
	call.turn = k.long
	return k.Spool.Await(ctx)
}

// finish hands out a reply.
func (c *Call) finish(reply Reply) {
	if c.settle != nil {
		c.settle(&reply)
	}
	if c.turn != nil {
		<-c.turn
	}
	if c.sequence == 0 && c.fed == nil || c.isAnswered() {
		c.reply <- reply
	}
	if c.left.Load() {
		c.drop()
	}
}

// Leave says that nobody waits for the reply any more, also where it is there already.
func (c *Call) Leave() {
	c.left.Store(true)
	c.drop()
}

// drop drops a reply that is there.
func (c *Call) drop() {
	select {
	case reply := <-c.reply:
		reply.Drop()
	default:
	}
}
