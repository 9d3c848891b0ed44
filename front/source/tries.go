package source

import (
	"context"
	"errors"
	"fmt"

	"review-front/source/served"
)

// tries tells what edits would change in the table, and makes none of them.
type tries interface {
	Try(ctx context.Context, edits [][]byte) (served.Difference, error)
}

// triedBy is what tells it of a front: the one place that has to change where a front tells it at less cost.
func triedBy(front *served.Front) tries { return dry{front} }

// dry has the front compare two whole tables (dry=1): of edits that fit into one body.
type dry struct{ front *served.Front }

// mostDry is how long a body may be that is compared.
const mostDry = 1 << 20

// errUntold is why it can't be told what edits would change.
var errUntold = errors.New("it can't be told who would gain and who would lose what")

// Try tells it, or says by errUntold why that can't be told.
func (d dry) Try(ctx context.Context, edits [][]byte) (served.Difference, error) {
	bytes := 0
	for _, edit := range edits {
		bytes += len(edit) + 1
	}
	if bytes > mostDry {
		return served.Difference{}, fmt.Errorf("%w: its %d edits have %d bytes, and %d are compared at most",
			errUntold, len(edits), bytes, mostDry)
	}
	told, err := d.front.Dry(ctx, edits)
	var problem *served.Problem
	if errors.As(err, &problem) && problem.Refused == 0 {
		// The table is too large for it, it takes too long, or has other modules than are compared.
		err = fmt.Errorf("%w: %v", errUntold, err)
	}
	return told, err
}
