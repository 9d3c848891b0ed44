//go:build nats

package jetstream

import (
	"context"
	"encoding/json"
	"errors"
	"fmt"
	"sync"
	"time"

	"github.com/nats-io/nats.go"

	"review-front/replicated"
)

// errLacks says that the server that leads the stream hasn't an edit that another one has.
var errLacks = errors.New("the server that leads the stream hasn't the edit")

// confirmed is edits as the server has them that leads the stream, up to the first that it lacks. What another server
// brings may be otherwise: one that led, and was killed or cut off, can keep edits that no other has in their places.
func (l *log) confirmed(ctx context.Context, brought []replicated.Edit, from *nats.Subscription) ([]replicated.Edit, error) {
	led, err := l.atLeaderBehind(ctx, brought[0].Sequence-1, len(brought))
	l.compare(led, brought, from)
	return led, err
}

// atLeaderBehind is so many edits behind a sequence as the server has them that leads the stream, up to the first that
// it lacks, or for which it can't be asked.
func (l *log) atLeaderBehind(ctx context.Context, behind uint64, count int) ([]replicated.Edit, error) {
	ctx, cancel := context.WithTimeout(ctx, askTime)
	defer cancel()
	led, failed := make([]replicated.Edit, count), make([]error, count)
	var all sync.WaitGroup
	for i := range led {
		all.Add(1)
		go func(i int) {
			defer all.Done()
			led[i], failed[i] = l.atLeader(ctx, behind+1+uint64(i))
		}(i)
	}
	all.Wait()
	for i := range led {
		if failed[i] != nil {
			return led[:i], failed[i]
		}
	}
	return led, nil
}

// compare says so where a server brought other edits than the one has that leads.
func (l *log) compare(led, brought []replicated.Edit, from *nats.Subscription) {
	first, count := uint64(0), 0
	for i, edit := range led {
		if isSame(edit, brought[i]) {
			continue
		}
		if count++; count == 1 {
			first = edit.Sequence
		}
	}
	if count > 0 {
		l.log.Error("a server of the stream has other edits than the one that leads: its store is to be emptied",
			"sequence", first, "edits", count, "server", serverOf(from))
	}
}

// serverOf is the name of the server at which a consumer stands.
func serverOf(from *nats.Subscription) string {
	info, err := from.ConsumerInfo()
	if err != nil || info.Cluster == nil {
		return ""
	}
	return info.Cluster.Leader
}

// isSame says whether two servers have the same edit.
func isSame(one, other replicated.Edit) bool {
	return one.ID == other.ID && one.By == other.By && one.Whole == other.Whole && one.Key == other.Key &&
		one.Time.Equal(other.Time) && string(one.Line) == string(other.Line)
}

// atLeader is the edit that the server which leads the stream has at a sequence.
func (l *log) atLeader(ctx context.Context, sequence uint64) (replicated.Edit, error) {
	message, err := l.jet.GetMsg(l.Stream, sequence, nats.Context(ctx))
	if errors.Is(err, nats.ErrMsgNotFound) {
		return replicated.Edit{}, fmt.Errorf("sequence %d: %w", sequence, errLacks)
	}
	if err != nil {
		return replicated.Edit{}, fmt.Errorf("sequence %d can't be asked of the server that leads the stream: %w", sequence, err)
	}
	return editAt(message.Header, message.Data, message.Sequence, message.Time), nil
}

// editAt reads a message as the edit of a sequence.
func editAt(head nats.Header, content []byte, sequence uint64, at time.Time) replicated.Edit {
	edit := replicated.Edit{
		ID: head.Get(nats.MsgIdHdr), Line: content, Whole: head.Get(wholeHeader) != "", Key: head.Get(keyHeader),
		Sequence: sequence, Time: at,
	}
	if json.Unmarshal([]byte(head.Get(byHeader)), &edit.By) != nil {
		edit.By = "" // it isn't of a front
	}
	return edit
}
