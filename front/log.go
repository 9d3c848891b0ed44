package main

import (
	"context"
	"fmt"
	"io"
	"net/http"
	"os"
	"strings"
	"time"

	"review-front/jetstream"
	"review-front/keeper"
	"review-front/logs"
	"review-front/replicated"
)

// placed says where journals and snapshots stand, and what takes that away at the end: with a log, and without
// --copy, they are this front's as long as it runs.
func (o options) placed() (options, func(), error) {
	switch {
	case o.stream.Servers == "":
		return o, func() {}, nil
	case o.copied != "":
		o.journal = o.copied
		return o, func() {}, nil
	}
	own, err := os.MkdirTemp("", "review-front-")
	if err != nil {
		return o, nil, fmt.Errorf("a folder for the copy of the log: %w", err)
	}
	o.journal = own
	return o, func() { _ = os.RemoveAll(own) }, nil
}

// edits is the stream through which edits go, or nil without one.
func (o options) edits(ctx context.Context, log *logs.Log) (replicated.Log, error) {
	if o.stream.Servers == "" {
		return nil, nil
	}
	stream := o.stream
	stream.Limits = o.limits
	return jetstream.Open(ctx, stream, log)
}

// fetchTime is how long another front may take to give a file.
const fetchTime = 5 * time.Minute

// otherFronts are the fronts of the same stream that were named.
func (o options) otherFronts() []keeper.Other {
	var all []keeper.Other
	for _, address := range o.others {
		all = append(all, otherFront{o, address})
	}
	return all
}

// otherFront is another front of the same stream, at an address.
type otherFront struct {
	options
	address string
}

// Snapshot is the file of its newest snapshot.
func (o otherFront) Snapshot(ctx context.Context) (io.ReadCloser, error) {
	return o.fetch(ctx, "/snapshot")
}

// Keys is what it remembers of bodies with keys.
func (o otherFront) Keys(ctx context.Context) (io.ReadCloser, error) {
	return o.fetch(ctx, "/snapshot/keys")
}

// Campaigns is what it knows of campaigns.
func (o otherFront) Campaigns(ctx context.Context) (io.ReadCloser, error) {
	return o.fetch(ctx, "/snapshot/campaigns")
}

// fetch asks another front for a file.
func (o otherFront) fetch(ctx context.Context, path string) (io.ReadCloser, error) {
	ask, err := http.NewRequestWithContext(ctx, http.MethodGet, strings.TrimSuffix(o.address, "/")+path, nil)
	if err != nil {
		return nil, err
	}
	if o.othersToken != "" {
		token, err := os.ReadFile(o.othersToken)
		if err != nil {
			return nil, fmt.Errorf("the token for other fronts: %w", err)
		}
		ask.Header.Set("Authorization", "Bearer "+strings.TrimSpace(string(token)))
	}
	answer, err := (&http.Client{Timeout: fetchTime}).Do(ask)
	if err != nil {
		return nil, err
	}
	if answer.StatusCode != http.StatusOK {
		answer.Body.Close()
		return nil, fmt.Errorf("%s answers %s", o.address, answer.Status)
	}
	return answer.Body, nil
}
