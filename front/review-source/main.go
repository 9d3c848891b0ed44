// Review-source brings people and things from where a company keeps them to a front.
package main

import (
	"context"
	"os"
	"os/signal"
	"syscall"

	"review-front/source"
)

func main() {
	ctx, stop := signal.NotifyContext(context.Background(), syscall.SIGTERM, syscall.SIGINT)
	status := source.Run(ctx, os.Args[1:], os.Stdout, os.Stderr)
	stop()
	os.Exit(status)
}
