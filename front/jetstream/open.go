//go:build nats

// Package jetstream has a stream of NATS JetStream as the log of edits.
package jetstream

import (
	"context"
	"errors"
	"fmt"
	"strings"
	"sync/atomic"
	"time"

	"github.com/nats-io/nats.go"

	"review-front/limits"
	"review-front/logs"
	"review-front/replicated"
)

const (
	// room is how long a message has to be allowed to be: a line of the limit, and who sent it.
	room = 1<<20 + 1<<14
	// remembered is how long the servers know a message by its id.
	remembered = 24 * time.Hour
	// askTime is how long one answer of the servers may take.
	askTime = 2 * time.Second
	// pingTime is how often a server is asked whether it is there; three times without an answer another one is taken.
	pingTime = time.Second
	// makeTime is how long they may take to make the stream.
	makeTime = 5 * time.Second
	// ofPrograms begins what a stream says of itself; the limits of its programs follow.
	ofPrograms = "edits of programs with "
	// firstPause and lastPause lie between two tries to reach the stream.
	firstPause = 100 * time.Millisecond
	lastPause  = 2 * time.Second
)

// log is a stream of NATS JetStream.
type log struct {
	Options
	connection *nats.Conn
	jet        nats.JetStreamContext
	acks       *acks
	subject    string
	replicas   atomic.Int64 // how many servers keep the stream
	watched    *watched
	closed     chan struct{}
	log        *logs.Log
}

// Built says whether the front has a client of NATS.
const Built = true

// Open reaches the stream, or makes it, and tries again until a context is done.
func Open(ctx context.Context, options Options, told *logs.Log) (replicated.Log, error) {
	connection, err := nats.Connect(options.Servers, options.connecting(told)...)
	if err != nil {
		return nil, fmt.Errorf("the servers of the stream: %w", err)
	}
	l := &log{Options: options, connection: connection, watched: newWatched(), closed: make(chan struct{}), log: told}
	if l.jet, err = connection.JetStream(nats.MaxWait(askTime)); err != nil {
		connection.Close()
		return nil, fmt.Errorf("the servers of the stream: %w", err)
	}
	if l.acks, err = newAcks(connection); err != nil {
		connection.Close()
		return nil, fmt.Errorf("the servers of the stream: %w", err)
	}
	for pause := firstPause; ; pause = longer(pause) {
		var final *unfit
		if err = l.find(ctx); err == nil {
			go l.watch()
			return l, nil
		}
		if ctx.Err() != nil || errors.As(err, &final) {
			connection.Close()
			return nil, err
		}
		told.Error("the stream can't be had, and is tried again", "stream", options.Stream, "error", err, "after", pause)
		if err := rest(ctx, pause); err != nil {
			connection.Close()
			return nil, err
		}
	}
}

// connecting says how the servers are reached. What is to be sent while none is reached isn't kept.
func (o Options) connecting(told *logs.Log) []nats.Option {
	return append(o.known(),
		nats.MaxReconnects(-1), nats.ReconnectWait(firstPause), nats.ReconnectBufSize(-1),
		nats.RetryOnFailedConnect(true), nats.Timeout(askTime), nats.PingInterval(pingTime), nats.MaxPingsOutstanding(3),
		nats.DisconnectErrHandler(func(_ *nats.Conn, err error) {
			if err != nil {
				told.Error("the connection to the stream is gone", "error", err)
			}
		}),
		nats.ReconnectHandler(func(c *nats.Conn) {
			told.Info("the stream is reached again", "server", c.ConnectedUrlRedacted())
		}),
		nats.ErrorHandler(func(_ *nats.Conn, _ *nats.Subscription, err error) {
			told.Error("the connection to the stream", "error", err)
		}),
	)
}

// known says who the front is, and by whom it knows the servers.
func (o Options) known() []nats.Option {
	how := []nats.Option{nats.Name("review-front")}
	if o.Credentials != "" {
		how = append(how, nats.UserCredentials(o.Credentials))
	}
	if o.Authority != "" {
		how = append(how, nats.RootCAs(o.Authority))
	}
	return how
}

// unfit says why a stream isn't taken, also later.
type unfit struct{ why string }

func (u *unfit) Error() string { return u.why }

// find looks for the stream, and makes it where there is none.
func (l *log) find(ctx context.Context) error {
	info, err := l.info(ctx)
	if errors.Is(err, nats.ErrStreamNotFound) {
		making, cancel := context.WithTimeout(ctx, makeTime)
		defer cancel()
		info, err = l.jet.AddStream(&nats.StreamConfig{
			Name: l.Stream, Subjects: []string{l.Stream + ".edits"}, Replicas: l.Replicas, Storage: nats.FileStorage,
			Duplicates: remembered, DenyDelete: true, Description: ofPrograms + l.Limits.String(),
		}, nats.Context(making))
	}
	if err != nil {
		return fmt.Errorf("the stream %s: %w", l.Stream, err)
	}
	return l.take(info.Config)
}

// limitsOf are the limits of a stream's programs, as words. One of before there were any has those of a standard one.
func limitsOf(config nats.StreamConfig) string {
	if strings.HasPrefix(config.Description, ofPrograms) {
		return strings.TrimPrefix(config.Description, ofPrograms)
	}
	return limits.Standard.String()
}

// take sees that a stream is fit for edits. Edits that were refused for a limit stand in it too: under any other one
// they wouldn't be.
func (l *log) take(config nats.StreamConfig) error {
	switch {
	case len(config.Subjects) != 1 || strings.ContainsAny(config.Subjects[0], "*>"):
		return &unfit{fmt.Sprintf("the stream %s has other subjects than one", l.Stream)}
	case config.Retention != nats.LimitsPolicy:
		return &unfit{fmt.Sprintf("the stream %s forgets edits that were read", l.Stream)}
	case config.Discard != nats.DiscardNew && (config.MaxMsgs > 0 || config.MaxBytes > 0):
		return &unfit{fmt.Sprintf("the stream %s forgets old edits for new ones", l.Stream)}
	case config.MaxMsgSize > 0 && config.MaxMsgSize < room || l.connection.MaxPayload() < room:
		return &unfit{fmt.Sprintf("the servers of the stream have to take messages of %d bytes (max_payload)", room)}
	case limitsOf(config) != l.Limits.String():
		return &unfit{fmt.Sprintf("the stream %s is of programs with %s, and this one has %v: all have the same",
			l.Stream, limitsOf(config), l.Limits)}
	}
	l.subject = config.Subjects[0]
	return nil
}

// info is what the servers say of the stream.
func (l *log) info(ctx context.Context) (*nats.StreamInfo, error) {
	ctx, cancel := context.WithTimeout(ctx, askTime)
	defer cancel()
	info, err := l.jet.StreamInfo(l.Stream, nats.Context(ctx))
	if err == nil {
		l.replicas.Store(int64(info.Config.Replicas))
	}
	return info, err
}

// Extent is what the stream has now.
func (l *log) Extent(ctx context.Context) (replicated.Extent, error) {
	info, err := l.info(ctx)
	if err != nil {
		return replicated.Extent{}, fmt.Errorf("the stream %s: %w", l.Stream, err)
	}
	first := info.State.FirstSeq
	if info.State.Msgs == 0 {
		first = info.State.LastSeq + 1
	}
	name := l.Stream + " of " + info.Created.UTC().Format(time.RFC3339Nano)
	return replicated.Extent{Name: name, First: first, Last: info.State.LastSeq}, nil
}

// Close ends the connection.
func (l *log) Close() {
	close(l.closed)
	l.connection.Close()
}

// rest waits a while, or until a context is done.
func rest(ctx context.Context, pause time.Duration) error {
	select {
	case <-time.After(pause):
		return nil
	case <-ctx.Done():
		return ctx.Err()
	}
}

// longer is the pause behind a pause.
func longer(pause time.Duration) time.Duration {
	if pause *= 2; pause > lastPause {
		return lastPause
	}
	return pause
}
