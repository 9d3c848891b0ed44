package heads

import (
	"bytes"
	"context"
	"fmt"
	"os/exec"
	"regexp"
	"strings"
	"sync"
	"time"

	"review-front/logs"
)

const (
	// commandTime is how long a command may take to take a head.
	commandTime = time.Minute
	firstPause  = time.Second
	lastPause   = time.Minute
	// mostWaiting is how many heads wait for a place that doesn't take them; of more the oldest go: the newest says all
	// that they say.
	mostWaiting = 1000
)

// target is where heads are sent: a file, a command behind `|`, or a stream.
type target struct {
	to      string
	shown   string // the same without a word by which somebody is known
	put     func(ctx context.Context, to string, line []byte) error
	log     *logs.Log
	mutex   sync.Mutex
	waiting [][]byte
	moved   chan struct{}
}

func newTarget(to string, options Options) *target {
	t := &target{to: to, shown: to, put: options.Put, log: options.Log, moved: make(chan struct{}, 1)}
	if IsStream(to) {
		t.shown = secret.ReplaceAllString(to, "$1")
	}
	return t
}

// secret is by what somebody is known to a server.
var secret = regexp.MustCompile(`(//|,)[^@/,]*@`)

// IsStream says whether heads are sent to, or read from, a stream by such a word: servers of NATS, and a name.
func IsStream(to string) bool {
	return strings.HasPrefix(to, "nats://") || strings.HasPrefix(to, "tls://")
}

// send has a head be sent.
func (t *target) send(line []byte) {
	t.mutex.Lock()
	defer t.mutex.Unlock()
	if t.waiting = append(t.waiting, line); len(t.waiting) > mostWaiting {
		t.waiting = t.waiting[1:]
	}
	select {
	case t.moved <- struct{}{}:
	default:
	}
}

// next is the oldest head that waits, or nil.
func (t *target) next() []byte {
	t.mutex.Lock()
	defer t.mutex.Unlock()
	if len(t.waiting) == 0 {
		return nil
	}
	return t.waiting[0]
}

// sent forgets a head that was taken.
func (t *target) sent(line []byte) {
	t.mutex.Lock()
	defer t.mutex.Unlock()
	if len(t.waiting) > 0 && bytes.Equal(t.waiting[0], line) {
		t.waiting = t.waiting[1:]
	}
}

// run sends heads in their order, each until it is taken, until the context is done.
func (t *target) run(ctx context.Context) {
	for pause := firstPause; ctx.Err() == nil; {
		line := t.next()
		if line == nil {
			select {
			case <-t.moved:
			case <-ctx.Done():
			}
			continue
		}
		err := t.give(ctx, line)
		if err == nil {
			t.sent(line)
			pause = firstPause
			continue
		}
		if ctx.Err() != nil {
			return
		}
		t.log.Error("a head can't be sent, and is sent again", "to", t.shown, "error", err, "after", pause)
		select {
		case <-time.After(pause):
		case <-ctx.Done():
		}
		if pause *= 2; pause > lastPause {
			pause = lastPause
		}
	}
}

// give gives a head to where it is to be.
func (t *target) give(ctx context.Context, line []byte) error {
	ctx, cancel := context.WithTimeout(ctx, commandTime)
	defer cancel()
	switch {
	case IsStream(t.to):
		return t.put(ctx, t.to, line)
	case !strings.HasPrefix(t.to, "|"):
		return appendTo(t.to, line)
	}
	command := exec.CommandContext(ctx, "/bin/sh", "-c", t.to[1:])
	command.Stdin = bytes.NewReader(append(append([]byte(nil), line...), '\n'))
	if said, err := command.CombinedOutput(); err != nil {
		return fmt.Errorf("%w: %.200s", err, said)
	}
	return nil
}
