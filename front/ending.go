package main

import (
	"context"
	"errors"
	"fmt"
	"net/http"
	"time"

	"review-front/keeper"
	"review-front/logs"
	"review-front/web"
)

// graceTime is how long the front may take to end behind the time that it was given.
const graceTime = 2 * time.Second

// ending is what has to end, in its order.
type ending struct {
	options
	log    *logs.Log
	server *http.Server
	site   *web.Server
	failed <-chan error // says that no client can be answered
}

// half is how long what is under way may take to end, and again the last snapshot.
func (o options) half() time.Duration { return (o.drain - o.lame) / 2 }

// until serves until the context is done, ends what is under way, and leaves a snapshot.
func (e *ending) until(ctx context.Context, started *keeper.Started) error {
	running, stop := context.WithCancel(context.Background())
	defer stop()
	ended := make(chan error, 1)
	go func() { ended <- started.Run(running) }()
	select {
	case err := <-ended:
		return err
	case err := <-e.failed:
		stop()
		<-ended
		return fmt.Errorf("clients can't be answered: %w", err)
	case <-ctx.Done():
	}
	if err := e.leave(ended); err != nil {
		return err
	}
	stop()
	return <-ended
}

// leave first says that the front ends and answers on, so that clients go where else they are answered, and then ends
// what is under way.
func (e *ending) leave(ended chan error) error {
	e.log.Info("the front was told to end", "lame", e.lame)
	e.site.Leave()
	timer := time.NewTimer(e.lame)
	defer timer.Stop()
	select {
	case <-timer.C:
	case err := <-ended:
		ended <- err // there is no state any more: what is under way has no reply
	}
	e.site.Stop()
	limit, cancel := context.WithTimeout(context.Background(), e.half())
	defer cancel()
	if err := e.server.Shutdown(limit); errors.Is(err, context.DeadlineExceeded) {
		e.log.Error("requests are ended that took too long", "after", e.half())
	} else if err != nil {
		return fmt.Errorf("ending what is under way: %w", err)
	}
	return nil
}
