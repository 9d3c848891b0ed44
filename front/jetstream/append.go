//go:build nats

package jetstream

import (
	"context"
	"encoding/json"
	"errors"
	"fmt"
	"strconv"
	"sync"
	"time"

	"github.com/nats-io/nats.go"

	"review-front/replicated"
)

const (
	// byHeader is the field of a message's head that says who sent the edit, as a text of JSON.
	byHeader = "Review-By"
	// wholeHeader is that which says that it is several edits, as many lines, which are made all together.
	wholeHeader = "Review-Whole"
	// keyHeader is that which says which line of which body with a key it is.
	keyHeader = "Review-Key"
)

// Append appends an edit right behind a sequence. Where an acknowledgement is lost it is looked what stands there
// before the edit is sent again. Each try is for the same place, which only one message can have: none is appended
// twice.
func (l *log) Append(ctx context.Context, behind uint64, edit replicated.Edit, sent func()) (uint64, error) {
	var once sync.Once
	said := func() { once.Do(sent) }
	defer said()
	if !l.watched.begin() {
		return 0, fmt.Errorf("%w: %v", replicated.ErrAway, errNobody)
	}
	defer l.watched.end()
	for again := false; ; again = true {
		message, err := l.message(behind, edit)
		if err != nil {
			return 0, err
		}
		sequence, err := l.publish(ctx, message, said)
		var moved *replicated.Moved
		is := errors.As(err, &moved)
		switch {
		case err == nil:
			return sequence, nil
		case is && !again:
			return 0, moved
		case errors.Is(err, errUnsent) && !again:
			return 0, fmt.Errorf("%w: %v", replicated.ErrAway, err)
		}
		there, err := l.lookUntil(ctx, behind+1)
		switch {
		case err != nil || there == "" && is: // or what stood there was taken away
			return 0, replicated.ErrUnsure
		case there == edit.ID:
			return behind + 1, nil
		case there != "":
			return 0, &replicated.Moved{Last: behind + 1}
		}
	}
}

// message is an edit as a message that is to stand right behind a sequence.
func (l *log) message(behind uint64, edit replicated.Edit) (*nats.Msg, error) {
	by, err := json.Marshal(edit.By)
	if err != nil {
		return nil, err
	}
	message := &nats.Msg{Subject: l.subject, Data: edit.Line, Header: nats.Header{byHeader: []string{string(by)}}}
	if edit.Whole {
		message.Header.Set(wholeHeader, "1")
	}
	if edit.Key != "" {
		message.Header.Set(keyHeader, edit.Key)
	}
	message.Header.Set(nats.MsgIdHdr, edit.ID)
	message.Header.Set(nats.ExpectedStreamHdr, l.Stream)
	message.Header.Set(nats.ExpectedLastSeqHdr, strconv.FormatUint(behind, 10))
	return message, nil
}

// lookUntil looks until there is an answer, or a context is done.
func (l *log) lookUntil(ctx context.Context, sequence uint64) (string, error) {
	for pause := firstPause; ; pause = longer(pause) {
		there, err := l.look(ctx, sequence)
		if err == nil {
			return there, nil
		}
		if err := rest(ctx, pause); err != nil {
			return "", err
		}
	}
}

// look is the id of the message that stands at a sequence, or nothing where none does.
func (l *log) look(ctx context.Context, sequence uint64) (string, error) {
	ctx, cancel := context.WithTimeout(ctx, askTime)
	defer cancel()
	message, err := l.jet.GetMsg(l.Stream, sequence, nats.Context(ctx))
	if errors.Is(err, nats.ErrMsgNotFound) {
		return "", nil
	}
	if err != nil {
		return "", err
	}
	if id := message.Header.Get(nats.MsgIdHdr); id != "" {
		return id, nil
	}
	return "another at " + message.Time.Format(time.RFC3339Nano), nil
}
