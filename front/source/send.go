package source

import (
	"context"
	"fmt"

	"review-front/source/differ"
	"review-front/source/served"
)

// mostAgain is how often a part of a body is made anew since somebody else edits, each time half of it.
const mostAgain = 100

// run looks, and sends what differs.
func (r *round) run(ctx context.Context) int {
	s, err := r.look(ctx)
	if err == nil {
		err = r.allowed(ctx, s)
	}
	if err == nil {
		err = r.send(ctx, s)
	}
	if err == nil {
		r.succeeded(s)
	}
	return r.status(err, s)
}

// succeeded tells and counts what was done.
func (r *round) succeeded(s *seen) {
	for _, plan := range s.plans {
		r.counts.done(plan)
		fmt.Fprintf(r.to, "%s: %s\n", plan.Given.Source.Name, summary(plan))
	}
}

// send sends all bodies, each behind the one before and made whole. Once somebody else edited in between, the names of
// each are looked at anew. Where nobody did it is known behind them what the front has.
func (r *round) send(ctx context.Context, s *seen) error {
	serial, alone := s.state.Serial, true
	for _, body := range differ.Bodies(s.plans) {
		r.known = nil
		front, err := r.front(body.Plan.Given.Source)
		if err != nil {
			return err
		}
		if alone {
			serial, err = front.Send(ctx, body.Edits(), serial)
			alone = !served.EditedBetween(err)
		}
		if !alone {
			err = r.sendAgain(ctx, s, body.Changes)
		}
		if err != nil {
			r.counts.refuse(body.Plan.Given.Source, refused)
			return fmt.Errorf("%s: %w", body.Plan.Given.Source.Name, err)
		}
		body.Tell(s.state)
	}
	if alone {
		s.state.Serial = serial
		r.known = s.state
	}
	return nil
}

// sendAgain sends changes in parts that become smaller whenever somebody else was quicker.
func (r *round) sendAgain(ctx context.Context, s *seen, rest []differ.Change) error {
	size := len(rest)
	for again := 0; len(rest) > 0 && ctx.Err() == nil; {
		if size > len(rest) {
			size = len(rest)
		}
		err := r.sendAnew(ctx, s, rest[:size])
		switch {
		case err == nil:
			rest, again = rest[size:], 0
		case !served.EditedBetween(err) || again == mostAgain:
			return err
		default:
			again++
			size = (size + 1) / 2
		}
	}
	return ctx.Err()
}

// sendAnew sends what changes have to be, now that somebody else edited: their names are looked at anew.
func (r *round) sendAnew(ctx context.Context, s *seen, changes []differ.Change) error {
	only := map[served.Entity]bool{}
	var entities []served.Entity
	for _, change := range changes {
		only[change.Entity] = true
		entities = append(entities, change.Entity)
	}
	state, err := s.front.State(ctx)
	if err != nil {
		return err
	}
	if err := s.front.ReadRows(ctx, state, entities); err != nil {
		return err
	}
	serial := state.Serial
	for _, anew := range differ.Bodies(differ.Compare(s.given, state, only)) {
		front, err := r.front(anew.Plan.Given.Source)
		if err != nil {
			return err
		}
		if serial, err = front.Send(ctx, anew.Edits(), serial); err != nil {
			return err
		}
	}
	return nil
}
