//go:build nats

package jetstream

import (
	"encoding/json"
	"fmt"

	"github.com/nats-io/nats.go"

	"review-front/replicated"
)

// sums is the subject of checksums, which no stream keeps.
func (l *log) sums() string { return l.Stream + ".sums" }

// Tell tells all fronts a checksum.
func (l *log) Tell(sum replicated.Sum) error {
	content, err := json.Marshal(sum)
	if err != nil {
		return err
	}
	if err := l.connection.Publish(l.sums(), content); err != nil {
		return err
	}
	return l.connection.FlushTimeout(askTime)
}

// Hear calls for each checksum that a front tells, until it is told to stop.
func (l *log) Hear(call func(replicated.Sum)) (func(), error) {
	heard, err := l.connection.Subscribe(l.sums(), func(message *nats.Msg) {
		var sum replicated.Sum
		if json.Unmarshal(message.Data, &sum) == nil {
			call(sum)
		}
	})
	if err != nil {
		return nil, fmt.Errorf("hearing checksums: %w", err)
	}
	return func() { _ = heard.Unsubscribe() }, nil
}
