package source

import (
	"context"
	"errors"
	"fmt"
	"strings"

	"review-front/source/differ"
)

// plan looks, and tells what would be done.
func (r *round) plan(ctx context.Context) int {
	s, err := r.look(ctx)
	if err != nil {
		return r.status(err, s)
	}
	for _, plan := range s.plans {
		fmt.Fprintf(r.to, "%s: %s\n", plan.Given.Source.Name, summary(plan))
		for _, changes := range [][]differ.Change{plan.Going, plan.Coming} {
			for _, change := range changes {
				r.tell(change)
			}
		}
	}
	if edits := s.edits(); len(edits) > 0 {
		err = r.tellDecisions(ctx, s, edits)
	}
	if err == nil {
		err = r.allowed(ctx, s)
	}
	return r.status(err, s)
}

// tell tells what becomes of a name, and of which rows.
func (r *round) tell(change differ.Change) {
	fmt.Fprintf(r.to, "  %s %s %s\n", change.What, singular[change.Entity.List], shown(change.Entity.Name))
	for _, row := range change.Rows {
		fmt.Fprintf(r.to, "    %s: %s -> %s\n", shown(row.Attribute), values(row.Before), values(row.Values))
	}
}

// tellDecisions tells who would gain and lose what.
func (r *round) tellDecisions(ctx context.Context, s *seen, edits [][]byte) error {
	difference, err := triedBy(s.front).Try(ctx, edits)
	if errors.Is(err, errUntold) {
		fmt.Fprintln(r.to, err)
		return nil
	}
	if err != nil {
		return err
	}
	gained := 0
	for _, one := range difference.Changed {
		what := "changes to " + one.After + " at"
		switch {
		case one.Gained():
			what = "gains"
			gained++
		case one.Lost():
			what = "loses"
		case one.Before == "" || one.After == "" || one.Before == one.After:
			continue // what is new or goes, and was no Permit
		}
		fmt.Fprintf(r.to, "%s %s %s %s\n", shown(one.Person), what, shown(one.Action), shown(one.Resource))
	}
	fmt.Fprintf(r.to, "%d Permits gained, %d lost, of %d\n", gained, difference.Lost(), s.state.Permits)
	return nil
}

var singular = map[string]string{"people": "person", "actions": "action", "resources": "resource"}

// summary says in numbers what a source changes.
func summary(plan *differ.Plan) string {
	told := fmt.Sprintf("%d added, %d set, %d dropped", plan.Count("", differ.Added), plan.Count("", differ.Set),
		plan.Count("", differ.Dropped))
	if left := plan.Count("", differ.Left); left > 0 {
		told += fmt.Sprintf(", %d left to others", left)
	}
	if plan.Passed > 0 {
		told += fmt.Sprintf(", %d passed over that nobody lists", plan.Passed)
	}
	return told
}

// shown is a name as it is, or in quotes where it has what may be misread.
func shown(name string) string {
	if name == "" || strings.ContainsAny(name, " ,\t\r\n\"\\\x1b") || strings.ToValidUTF8(name, "") != name {
		return fmt.Sprintf("%q", name)
	}
	return name
}

// values are those of a row.
func values(all []string) string {
	if len(all) == 0 {
		return "none"
	}
	told := make([]string, len(all))
	for i, one := range all {
		told[i] = shown(one)
	}
	return strings.Join(told, ", ")
}
