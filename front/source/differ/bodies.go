package differ

import "review-front/source/served"

// What a body that is made whole may have. Its bytes are those of a line, less the newlines.
const (
	mostEdits = 1024
	mostBytes = 1_000_000
)

// Body is changes of one source that are sent together.
type Body struct {
	Plan    *Plan
	Changes []Change
}

// Edits are the lines of a body.
func (b Body) Edits() [][]byte {
	var lines [][]byte
	for _, change := range b.Changes {
		lines = append(lines, change.Edits...)
	}
	return lines
}

// Tell has a state know what the body made.
func (b Body) Tell(state *served.State) {
	for _, change := range b.Changes {
		for _, row := range change.Rows {
			state.Set(change.Entity, served.Row{
				Attribute: row.Attribute, Type: row.Type, Issuer: row.Issuer, Module: row.Module, Values: row.Values,
			})
		}
	}
}

// Bodies are those of all plans in their order: what goes, before what comes may need its room; then rows; and names
// that are added at the end, which have all of their rows then.
func Bodies(plans []*Plan) []Body {
	var bodies []Body
	for _, plan := range plans {
		bodies = append(bodies, packed(plan, plan.Going)...)
	}
	for _, what := range []What{Set, Added} {
		for _, plan := range plans {
			var some []Change
			for _, change := range plan.Coming {
				if change.What == what {
					some = append(some, change)
				}
			}
			bodies = append(bodies, packed(plan, some)...)
		}
	}
	return bodies
}

// packed are bodies of changes, none of which is divided.
func packed(plan *Plan, changes []Change) []Body {
	var bodies []Body
	edits, bytes, from := 0, 0, 0
	for i, change := range changes {
		long := 0
		for _, line := range change.Edits {
			long += len(line) + 1
		}
		if i > from && (edits+len(change.Edits) > mostEdits || bytes+long > mostBytes) {
			bodies = append(bodies, Body{plan, changes[from:i]})
			edits, bytes, from = 0, 0, i
		}
		edits, bytes = edits+len(change.Edits), bytes+long
	}
	if from < len(changes) {
		bodies = append(bodies, Body{plan, changes[from:]})
	}
	return bodies
}
