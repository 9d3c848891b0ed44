package source

import (
	"context"
	"errors"
	"fmt"
	"io"
	"strings"
	"sync"

	"review-front/source/differ"
	"review-front/source/form"
	"review-front/source/records"
	"review-front/source/served"
)

// round is what is done once, or again and again.
type round struct {
	options options
	sources []*form.Source
	fronts  map[*form.Source]*served.Front
	kept    map[*form.Kind]*records.Kept
	known   *served.State // what the front had, as far as it was read; may be nil
	counts  *counts
	to      io.Writer
	mutex   sync.Mutex
	faults  io.Writer
}

func newRound(o options, sources []*form.Source, to, faults io.Writer) *round {
	r := &round{
		options: o, sources: sources, fronts: map[*form.Source]*served.Front{}, kept: map[*form.Kind]*records.Kept{},
		counts: newCounts(sources), to: to, faults: faults,
	}
	for _, s := range sources {
		for _, kind := range s.Kinds() {
			r.kept[kind] = &records.Kept{}
		}
	}
	return r
}

// close lets connections go.
func (r *round) close() {
	for _, front := range r.fronts {
		front.Close()
	}
}

// front is the front, as a source asks it.
func (r *round) front(s *form.Source) (*served.Front, error) {
	if front := r.fronts[s]; front != nil {
		return front, nil
	}
	front, err := served.New(served.Options{
		Address: r.options.front, Authority: r.options.authority, ByHeader: r.options.byHeader, Name: s.Name,
		Token: s.Beside(s.Token), Certificate: s.Beside(s.Certificate), Key: s.Beside(s.Key),
		Patience: r.options.patience, Timeout: r.options.timeout,
	})
	if err != nil {
		return nil, fmt.Errorf("%s: %w", s.Path, err)
	}
	r.fronts[s] = front
	return front, nil
}

// read reads all sources, and tells of those that can't be read: nothing of them is used.
func (r *round) read(ctx context.Context) []*differ.Given {
	var all []*differ.Given
	for _, s := range r.sources {
		one := &differ.Given{Source: s, Entities: map[string]map[string]*records.Entity{}}
		var err error
		for _, kind := range s.Kinds() {
			limited, stop := context.WithTimeout(ctx, r.options.timeout)
			one.Entities[kind.List], err = records.Read(limited, s, kind, r.kept[kind])
			if stop(); err != nil {
				err = fmt.Errorf("%s of %s:\n%w", kind.List, s.Name, err)
				break
			}
		}
		if err != nil {
			r.counts.refuse(s, unread)
			r.fault(err)
			continue
		}
		all = append(all, one)
	}
	return all
}

// fault tells of something that isn't as it should be.
func (r *round) fault(err error) {
	r.mutex.Lock()
	defer r.mutex.Unlock()
	fmt.Fprintln(r.faults, "review-source:", strings.ReplaceAll(err.Error(), "\n", "\n  "))
}

// seen is what sources have and what the front has.
type seen struct {
	given []*differ.Given
	front *served.Front
	state *served.State
	plans []*differ.Plan
}

// look reads both, and compares them. It is nil where there is nothing to compare.
func (r *round) look(ctx context.Context) (*seen, error) {
	s := &seen{given: r.read(ctx)}
	if ctx.Err() != nil {
		return nil, ctx.Err()
	}
	if len(s.given) == 0 {
		return nil, errors.New("no source could be read")
	}
	var err error
	if s.front, err = r.front(s.given[0].Source); err != nil {
		return nil, err
	}
	if s.state, err = s.front.State(ctx); err != nil {
		return nil, err
	}
	if r.known != nil && r.known.Serial == s.state.Serial {
		s.state.Rows, s.state.Whole = r.known.Rows, r.known.Whole
	}
	r.known = nil
	if !s.state.Whole {
		if err := s.front.ReadRows(ctx, s.state, s.unknown()); err != nil {
			return nil, err
		}
	}
	r.known = s.state
	s.plans = differ.Compare(s.given, s.state, nil)
	return s, s.fits()
}

// unknown are the names of all lists that a source has, on either side, whose rows aren't known.
func (s *seen) unknown() []served.Entity {
	var all []served.Entity
	seen := map[served.Entity]bool{}
	add := func(list, name string) {
		entity := served.Entity{List: list, Name: name}
		if _, known := s.state.Rows[entity]; !known && !seen[entity] {
			seen[entity] = true
			all = append(all, entity)
		}
	}
	for _, one := range s.given {
		for _, kind := range one.Source.Kinds() {
			for name := range s.state.Names[kind.List] {
				add(kind.List, name)
			}
			for name := range one.Entities[kind.List] {
				add(kind.List, name)
			}
		}
	}
	return all
}

// fits sees that the lists take what they would have in the end, before anything is sent.
func (s *seen) fits() error {
	cells := uint64(1)
	for _, list := range []string{"people", "actions", "resources"} {
		after := len(s.state.Names[list])
		for _, plan := range s.plans {
			after += plan.Count(list, differ.Added) - plan.Count(list, differ.Dropped)
		}
		if most := s.state.Limits[list].Most; uint64(after) > most {
			return fmt.Errorf("there would be %d %s, and the front takes %d: start it with --%s %d",
				after, list, most, list, after)
		}
		cells *= uint64(after)
	}
	if most := s.state.Limits["cells"].Most; cells > most {
		return fmt.Errorf("the table would have %d cells, and the front takes %d: start it with --cells %d",
			cells, most, cells)
	}
	return nil
}

// edits are all edits, in the order in which they are sent.
func (s *seen) edits() [][]byte {
	var all [][]byte
	for _, body := range differ.Bodies(s.plans) {
		all = append(all, body.Edits()...)
	}
	return all
}

// errTooMuch is that more would be dropped or lost than may be.
var errTooMuch = errors.New("nothing was changed")

// allowed sees that no more is dropped and lost than may be.
func (r *round) allowed(ctx context.Context, s *seen) error {
	most := r.options.atMost
	for _, plan := range s.plans {
		for list, marked := range plan.Marked {
			leaving := plan.Leaving[list]
			if leaving > 0 && len(plan.Given.Entities[list]) == 0 && !most.given {
				r.counts.refuse(plan.Given.Source, excessive)
				return fmt.Errorf("%s has none of its %d %s any more, which is taken with --at-most 100%% alone: %w",
					plan.Given.Source.Name, marked, list, errTooMuch)
			}
			if most.exceeds(leaving, marked) {
				r.counts.refuse(plan.Given.Source, excessive)
				return fmt.Errorf("%s would drop %d of its %d %s, more than %s: %w",
					plan.Given.Source.Name, leaving, marked, list, most.String(), errTooMuch)
			}
		}
	}
	if !most.given || most.per == 100 || s.state.Permits == 0 {
		return nil
	}
	return r.allowedToLose(ctx, s)
}

// allowedToLose sees that no more Permits are lost than may be.
func (r *round) allowedToLose(ctx context.Context, s *seen) error {
	edits := s.edits()
	if len(edits) == 0 {
		return nil
	}
	difference, err := triedBy(s.front).Try(ctx, edits)
	switch lost := difference.Lost(); {
	case errors.Is(err, errUntold) && r.options.untold:
		r.fault(err)
		return nil
	case errors.Is(err, errUntold):
		return fmt.Errorf("%v; --untold goes on without: %w", err, errTooMuch)
	case err != nil:
		return err
	case r.options.atMost.exceeds(lost, int(s.state.Permits)):
		for _, plan := range s.plans {
			if len(plan.Going)+len(plan.Coming) > 0 {
				r.counts.refuse(plan.Given.Source, excessive)
			}
		}
		return fmt.Errorf("%d of %d Permits would be lost, more than %s: %w",
			lost, s.state.Permits, r.options.atMost.String(), errTooMuch)
	}
	return nil
}

// status is the exit status of an error, which it tells.
func (r *round) status(err error, s *seen) int {
	if err != nil {
		r.fault(err)
	}
	switch {
	case errors.Is(err, errTooMuch):
		return tooMuch
	case err != nil || len(s.given) < len(r.sources):
		return failed
	}
	return 0
}
