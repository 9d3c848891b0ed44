// Review-front serves the program `review` to many clients, and keeps what they edit.
package main

import (
	"context"
	"errors"
	"io"
	"os"
	"os/signal"
	"runtime/debug"
	"syscall"
	"time"

	"review-front/logs"
)

// collected is by how many percent the heap grows before it is collected, and eager from which size on that is done
// more often.
const (
	collected = 400
	eager     = 256 << 20
)

// offline are the commands that read a folder and serve nothing.
var offline = map[string]func(words []string, to, faults io.Writer) int{
	"history": history, "verify": verify, "repair": repair, "restore": restore, "undo": undo,
}

func main() {
	os.Exit(run(os.Args[1:]))
}

// run does what the words ask for, and gives the exit status.
func run(words []string) int {
	if len(words) > 0 {
		if command, there := offline[words[0]]; there {
			return command(words[1:], os.Stdout, os.Stderr)
		}
	}
	options, status, ok := parse(words, os.Stderr)
	if !ok {
		return status
	}
	if os.Getenv("GOGC") == "" {
		// What is held is little, what goes through is much: collecting less often leaves the processors to requests.
		debug.SetGCPercent(collected)
	}
	if os.Getenv("GOMEMLIMIT") == "" {
		debug.SetMemoryLimit(eager)
	}
	ctx, stop := signal.NotifyContext(context.Background(), syscall.SIGTERM, syscall.SIGINT)
	defer stop()
	// A log that nobody reads any more doesn't end the front.
	signal.Ignore(syscall.SIGPIPE)
	again := make(chan os.Signal, 1)
	signal.Notify(again, syscall.SIGHUP)
	log := logs.New(os.Stderr)
	ended := make(chan error, 1)
	go func() { ended <- serve(ctx, again, options, log) }()
	if err := inTime(ctx, ended, options.drain+graceTime); err != nil {
		log.Error("the front ends", "error", err)
		return 1
	}
	return 0
}

// inTime waits for the end. Once the context is done it waits so long: what is on disk stands also if more was to be
// done.
func inTime(ctx context.Context, ended <-chan error, while time.Duration) error {
	select {
	case err := <-ended:
		return err
	case <-ctx.Done():
	}
	timer := time.NewTimer(while)
	defer timer.Stop()
	select {
	case err := <-ended:
		return err
	case <-timer.C:
		return errors.New("it didn't come to its end in its time")
	}
}
