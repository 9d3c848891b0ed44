//go:build nats

package jetstream

import (
	"context"
	"crypto/sha256"
	"encoding/hex"
	"errors"
	"fmt"

	"github.com/nats-io/nats.go"
)

// ofHeads is what a stream of heads says of itself: a head that were put among edits would take a serial of theirs.
const ofHeads = "heads of a journal"

// heads is a stream of heads, as long as a connection to its servers.
type heads struct {
	Options
	connection *nats.Conn
	jet        nats.JetStreamContext
}

// reachHeads reaches the servers of a stream of heads, once.
func reachHeads(options Options) (*heads, error) {
	how := append(options.known(), nats.NoReconnect(), nats.Timeout(askTime))
	connection, err := nats.Connect(options.Servers, how...)
	if err != nil {
		return nil, fmt.Errorf("the servers of the stream %s: %w", options.Stream, err)
	}
	jet, err := connection.JetStream(nats.MaxWait(askTime))
	if err != nil {
		connection.Close()
		return nil, fmt.Errorf("the servers of the stream %s: %w", options.Stream, err)
	}
	return &heads{Options: options, connection: connection, jet: jet}, nil
}

// find looks for the stream, and makes it where there is none, so that nothing is taken out of it again.
func (h *heads) find(ctx context.Context, make bool) (*nats.StreamInfo, error) {
	info, err := h.jet.StreamInfo(h.Stream, nats.Context(ctx))
	if errors.Is(err, nats.ErrStreamNotFound) && make {
		info, err = h.jet.AddStream(&nats.StreamConfig{
			Name: h.Stream, Subjects: []string{h.Stream + ".heads"}, Replicas: h.Replicas, Storage: nats.FileStorage,
			Duplicates: remembered, DenyDelete: true, DenyPurge: true, Description: ofHeads,
		}, nats.Context(ctx))
	}
	if err != nil {
		return nil, fmt.Errorf("the stream %s: %w", h.Stream, err)
	}
	if info.Config.Description != ofHeads || len(info.Config.Subjects) != 1 {
		return nil, fmt.Errorf("the stream %s isn't one of heads", h.Stream)
	}
	return info, nil
}

// PutHead puts a head into a stream of heads, which is made where there is none. One that is put again within a day
// stands there once.
func PutHead(ctx context.Context, options Options, line []byte) error {
	h, err := reachHeads(options)
	if err != nil {
		return err
	}
	defer h.connection.Close()
	making, cancel := context.WithTimeout(ctx, makeTime)
	defer cancel()
	info, err := h.find(making, true)
	if err != nil {
		return err
	}
	sum := sha256.Sum256(line)
	message := &nats.Msg{Subject: info.Config.Subjects[0], Data: line, Header: nats.Header{}}
	message.Header.Set(nats.MsgIdHdr, hex.EncodeToString(sum[:]))
	message.Header.Set(nats.ExpectedStreamHdr, h.Stream)
	if _, err := h.jet.PublishMsg(message, nats.Context(making)); err != nil {
		return fmt.Errorf("the stream %s: %w", h.Stream, err)
	}
	return nil
}

// Heads are those that a stream has, each as a line.
func Heads(ctx context.Context, options Options) ([]byte, error) {
	h, err := reachHeads(options)
	if err != nil {
		return nil, err
	}
	defer h.connection.Close()
	info, err := h.find(ctx, false)
	if err != nil {
		return nil, err
	}
	var lines []byte
	if info.State.Msgs != info.State.LastSeq {
		return nil, fmt.Errorf("the stream %s has %d heads, and had %d", h.Stream, info.State.Msgs, info.State.LastSeq)
	}
	for sequence := uint64(1); sequence <= info.State.LastSeq; sequence++ {
		message, err := h.jet.GetMsg(h.Stream, sequence, nats.Context(ctx))
		if err != nil {
			return nil, fmt.Errorf("head %d of the stream %s: %w", sequence, h.Stream, err)
		}
		lines = append(append(lines, message.Data...), '\n')
	}
	return lines, nil
}
