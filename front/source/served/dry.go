package served

import (
	"bytes"
	"context"
	"encoding/json"
	"fmt"
)

// Permit is the decision that somebody gains or loses.
const Permit = "Permit"

// Difference is what edits would change.
type Difference struct{ Changed []Changed }

// Changed is a request with its decision before and after, which is empty where it isn't listed.
type Changed struct{ Person, Action, Resource, Before, After string }

// Gained says that it has Permit then.
func (c Changed) Gained() bool { return c.Before != Permit && c.After == Permit }

// Lost says that it has no Permit any more.
func (c Changed) Lost() bool { return c.Before == Permit && c.After != Permit }

// Lost is how many requests lose Permit.
func (d Difference) Lost() int {
	lost := 0
	for _, one := range d.Changed {
		if one.Lost() {
			lost++
		}
	}
	return lost
}

// Dry asks what edits would change.
func (f *Front) Dry(ctx context.Context, edits [][]byte) (Difference, error) {
	got, err := f.post(ctx, "/lines?dry=1", append(bytes.Join(edits, []byte("\n")), '\n'), nil)
	if err != nil {
		return Difference{}, err
	}
	type cell struct{ Person, Action, Resource, Decision string }
	var told struct {
		Decisions []struct{ Before, After *cell }
	}
	if err := json.Unmarshal(got.body, &told); err != nil {
		return Difference{}, fmt.Errorf("what would change can't be read: %w", err)
	}
	var all Difference
	for _, one := range told.Decisions {
		var changed Changed
		if one.Before != nil {
			changed = Changed{one.Before.Person, one.Before.Action, one.Before.Resource, one.Before.Decision, ""}
		}
		if one.After != nil {
			changed = Changed{one.After.Person, one.After.Action, one.After.Resource, changed.Before, one.After.Decision}
		}
		all.Changed = append(all.Changed, changed)
	}
	return all, nil
}
