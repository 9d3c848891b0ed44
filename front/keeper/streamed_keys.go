package keeper

import (
	"context"
	"fmt"
	"io"

	"review-front/folder"
	"review-front/keys"
	"review-front/line"
)

// idOf is the id of an edit: of one that came with a key the same wherever it is sent again. Several that are made all
// together have another one than the first of them alone.
func idOf(call *Call) (string, error) {
	switch {
	case call.Remember == nil:
		return newID()
	case call.group != nil:
		return call.Remember.Word() + "-whole", nil
	}
	return call.Remember.Word(), nil
}

// keyed says which line of which body with a key an edit is, or nothing.
func (c *Call) keyed() string {
	if c.Remember == nil {
		return ""
	}
	return c.Remember.String()
}

// isOf says which line of which body with a key the edit of another front is, or its first.
func (c *Call) isOf(key string) {
	first, isKeyed := keys.Parse(key)
	if !isKeyed {
		return
	}
	for i, one := range c.all() {
		next := first.Next(i)
		one.Remember = &next
	}
}

// adoptKeys has this front remember what another one does.
func (l *streamed) adoptKeys(ctx context.Context, from Other) error {
	file, err := from.Keys(ctx)
	if err != nil {
		return err
	}
	defer file.Close()
	content, err := io.ReadAll(file)
	if err != nil {
		return err
	}
	return l.keeper.Keys.Adopt(content)
}

// owns sees that no other body has the key of an edit. All that other fronts appended before its place was looked at by
// then, and what this one did is known: so none has it where the edit gets that place. It is for who has the mutex.
func (l *streamed) owns(call *Call) (err error) {
	switch {
	case call.Remember == nil:
		return nil
	case call.sent:
		return l.keeper.Keys.Owns(*call.Remember)
	}
	err = l.keeper.Keys.Send(*call.Remember)
	call.sent = err == nil
	return err
}

// unsent says that an edit isn't in the stream.
func (l *streamed) unsent(call *Call) {
	if call.sent {
		l.keeper.Keys.Unsent(*call.Remember)
	}
}

// appendedBefore says that a stream has an edit already, which came with a key.
type appendedBefore struct{ sequence uint64 }

func (a *appendedBefore) Error() string { return fmt.Sprintf("it is that of sequence %d", a.sequence) }

// answer answers edits, and is false where there is nothing to answer.
func answer(all []*Call, replies []Reply) bool {
	for i, reply := range replies {
		all[i].reply <- reply
	}
	return replies != nil
}

// repeats is how edits that stand in the stream already were answered, where that is why they can't be appended. One
// that is to be the edit behind a serial may itself be what stands behind it.
func (l *streamed) repeats(ctx context.Context, all []*Call, why error) []Reply {
	switch why := why.(type) {
	case *appendedBefore:
		return l.repeated(ctx, all, why.sequence)
	case *Otherwise:
		return l.keeper.remembered(all)
	}
	return nil
}

// repeated is the reply to an edit that stands in the stream already, or to each of those that are made all together.
func (l *streamed) repeated(ctx context.Context, all []*Call, sequence uint64) []Reply {
	k := l.keeper
	if k.Reach(ctx, sequence) != nil {
		return []Reply{{Err: ErrAppended}}
	}
	if replies := k.remembered(all); replies != nil {
		return replies
	}
	if sequence < k.Folder.First() {
		return []Reply{{Err: ErrForgotten}}
	}
	replies, err := k.journalled(sequence)
	switch {
	case err != nil:
		k.Log.Error("what was answered to an edit can't be read", "sequence", sequence, "error", err)
		return []Reply{{Err: ErrAppended}}
	case len(replies) == len(all):
		return replies
	}
	return []Reply{{Err: ErrRefused}}
}

// remembered is what is remembered of the answers to lines of a body with a key, if each has one.
func (k *Keeper) remembered(all []*Call) (replies []Reply) {
	for _, one := range all {
		if one.Remember == nil {
			return nil
		}
		body, refused := k.Keys.Reply(*one.Remember)
		switch {
		case body != nil:
			replies = append(replies, Reply{Body: body, Serial: k.serial.Load()})
		case refused != nil && one.group != nil:
			return []Reply{{Err: &Part{Number: refused.Number, Reply: refused.Reply}}}
		default:
			return nil
		}
	}
	return replies
}

// journalled is the replies to the edits of a sequence that were accepted, as the journal has them.
func (k *Keeper) journalled(sequence uint64) (replies []Reply, err error) {
	err = k.Folder.Each(sequence-1, func(entry folder.Entry, _ folder.Place) error {
		if entry.Serial != sequence {
			return errEnough
		}
		body := line.Accepted{Changes: entry.Changes, Serial: sequence}.Reply()
		replies = append(replies, Reply{Body: body, Serial: sequence})
		return nil
	})
	if err == errEnough {
		err = nil
	}
	return replies, err
}
