//go:build !nats

// Package jetstream has a stream of NATS JetStream as the log of edits.
package jetstream

import (
	"context"
	"errors"

	"review-front/logs"
	"review-front/replicated"
)

// Built says whether the front has a client of NATS.
const Built = false

var errNone = errors.New("this front was built without the client of NATS: golang-github-nats-io-go-nats-dev")

// Open says that there is no client.
func Open(context.Context, Options, *logs.Log) (replicated.Log, error) { return nil, errNone }

// PutHead says that there is no client.
func PutHead(context.Context, Options, []byte) error { return errNone }

// Heads says that there is no client.
func Heads(context.Context, Options) ([]byte, error) { return nil, errNone }
