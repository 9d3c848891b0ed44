//go:build postgres

package records

import (
	"time"

	"github.com/lib/pq"

	"review-front/source/form"
)

// Between two attempts to reach a database that says when something changed.
const (
	soonest = time.Second
	latest  = time.Minute
)

// Listen calls whenever a database says by NOTIFY that something changed, and when it is reached again, since it may
// have said so before. Faults are told besides. It goes on until it is stopped.
func Listen(s *form.Source, from *form.Postgres, heard func(), fault func(error)) (stop func(), err error) {
	words, err := connectionOf(s, from)
	if err != nil {
		return nil, err
	}
	listener := pq.NewListener(words, soonest, latest, func(what pq.ListenerEventType, err error) {
		if err != nil {
			fault(err)
		}
		if what == pq.ListenerEventReconnected {
			heard()
		}
	})
	go func() {
		// It waits for the database, which may be away.
		if err := listener.Listen(from.Notify); err != nil {
			fault(err)
			return
		}
		heard()
	}()
	go func() {
		for range listener.Notify {
			heard()
		}
	}()
	return func() { _ = listener.Close() }, nil
}
