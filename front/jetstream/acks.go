//go:build nats

package jetstream

import (
	"context"
	"encoding/json"
	"errors"
	"fmt"
	"regexp"
	"strconv"
	"sync"

	"github.com/nats-io/nats.go"

	"review-front/replicated"
)

// acks are the acknowledgements that come for messages which were sent one right behind another.
type acks struct {
	inbox string
	mutex sync.Mutex
	count uint64
	due   map[string]chan *nats.Msg
}

// newAcks takes acknowledgements over a connection.
func newAcks(connection *nats.Conn) (*acks, error) {
	a := &acks{inbox: nats.NewInbox() + ".", due: map[string]chan *nats.Msg{}}
	_, err := connection.Subscribe(a.inbox+"*", a.take)
	return a, err
}

// take hands an acknowledgement to who waits for it.
func (a *acks) take(said *nats.Msg) {
	a.mutex.Lock()
	defer a.mutex.Unlock()
	if due := a.due[said.Subject]; due != nil {
		due <- said
		delete(a.due, said.Subject)
	}
}

// expect is the subject of an acknowledgement, and where it comes.
func (a *acks) expect() (string, chan *nats.Msg) {
	a.mutex.Lock()
	defer a.mutex.Unlock()
	a.count++
	subject, due := a.inbox+strconv.FormatUint(a.count, 10), make(chan *nats.Msg, 1)
	a.due[subject] = due
	return subject, due
}

// forget says that nobody waits for one.
func (a *acks) forget(subject string) {
	a.mutex.Lock()
	defer a.mutex.Unlock()
	delete(a.due, subject)
}

var (
	// errUnsent says that a message wasn't sent, and errNobody that nobody heard it: no server leads the stream.
	errUnsent = errors.New("no server is reached")
	errNobody = fmt.Errorf("%w that leads the stream", errUnsent)
)

// publish sends a message once, says so, and waits for its acknowledgement.
func (l *log) publish(ctx context.Context, message *nats.Msg, sent func()) (uint64, error) {
	if !l.connection.IsConnected() {
		return 0, errUnsent
	}
	ctx, cancel := context.WithTimeout(ctx, askTime)
	defer cancel()
	subject, due := l.acks.expect()
	defer l.acks.forget(subject)
	message.Reply = subject
	if err := l.connection.PublishMsg(message); err != nil {
		return 0, fmt.Errorf("%w: %v", errUnsent, err)
	}
	sent()
	select {
	case said := <-due:
		if heardByNobody(said) {
			l.watched.nobody()
			return 0, errNobody
		}
		l.watched.answered(true)
		return acknowledged(said)
	case <-ctx.Done():
		l.watched.answered(false)
		return 0, ctx.Err()
	}
}

// heardByNobody says whether a server answers that there is nobody to hear a message.
func heardByNobody(said *nats.Msg) bool {
	return len(said.Data) == 0 && said.Header.Get("Status") == "503"
}

// acknowledged is the sequence in an acknowledgement, or why there is none.
func acknowledged(said *nats.Msg) (uint64, error) {
	var ack struct {
		Stream string         `json:"stream"`
		Seq    uint64         `json:"seq"`
		Error  *nats.APIError `json:"error"`
	}
	if err := json.Unmarshal(said.Data, &ack); err != nil {
		return 0, fmt.Errorf("an acknowledgement can't be read: %w", err) // nobody answers for the stream just now
	}
	if ack.Error == nil {
		return ack.Seq, nil
	}
	if ack.Error.ErrorCode == nats.JSErrCodeStreamWrongLastSequence {
		if last, ok := lastIn(ack.Error.Description); ok {
			return 0, &replicated.Moved{Last: last}
		}
	}
	return 0, ack.Error
}

// numberIn finds the last sequence in what the servers say of another one.
var numberIn = regexp.MustCompile(`: (\d+)$`)

// lastIn is the last sequence as the servers tell it.
func lastIn(description string) (uint64, bool) {
	found := numberIn.FindStringSubmatch(description)
	if found == nil {
		return 0, false
	}
	last, err := strconv.ParseUint(found[1], 10, 64)
	return last, err == nil
}
