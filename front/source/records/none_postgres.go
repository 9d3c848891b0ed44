//go:build !postgres

package records

import (
	"context"
	"errors"

	"review-front/source/form"
)

// WithPostgres says whether databases can be asked.
const WithPostgres = false

var errNoPostgres = errors.New("this review-source was built without a client of PostgreSQL: golang-github-lib-pq-dev")

func readPostgres(context.Context, *form.Source, *form.Postgres, *reading) error {
	return errNoPostgres
}

// Listen says that there is no client.
func Listen(*form.Source, *form.Postgres, func(), func(error)) (stop func(), err error) {
	return nil, errNoPostgres
}
