package source

import (
	"context"
	"time"

	"review-front/source/records"
)

// often does it again and again, also whenever a database says that something changed, until it is told to end.
func (r *round) often(ctx context.Context) int {
	stop, err := r.counts.serve(r.options.metrics)
	if err != nil {
		r.fault(err)
		return failed
	}
	defer stop()
	heard, deaf, err := r.listen()
	if err != nil {
		r.fault(err)
		return failed
	}
	defer deaf()
	ticker := time.NewTicker(r.options.every)
	defer ticker.Stop()
	for {
		r.run(ctx)
		select {
		case <-ticker.C:
		case <-heard:
		case <-ctx.Done():
			return 0
		}
	}
}

// listen listens to all databases that say when something changed. What several say meanwhile is heard once.
func (r *round) listen() (<-chan struct{}, func(), error) {
	heard := make(chan struct{}, 1)
	var stops []func()
	deaf := func() {
		for _, stop := range stops {
			stop()
		}
	}
	for _, s := range r.sources {
		for _, kind := range s.Kinds() {
			if kind.Postgres == nil || kind.Postgres.Notify == "" {
				continue
			}
			stop, err := records.Listen(s, kind.Postgres, func() {
				select {
				case heard <- struct{}{}:
				default:
				}
			}, r.fault)
			if err != nil {
				deaf()
				return nil, nil, err
			}
			stops = append(stops, stop)
		}
	}
	return heard, deaf, nil
}
