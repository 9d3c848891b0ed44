//go:build !ldap

package records

import (
	"context"
	"errors"

	"review-front/source/form"
)

// Kept is what a reading of a directory leaves for the next.
type Kept struct{}

// WithLDAP says whether directories can be read.
const WithLDAP = false

func readLDAP(context.Context, *form.Source, *form.Kind, *Kept, *reading) error {
	return errors.New("this review-source was built without a client of LDAP: golang-github-go-ldap-ldap-dev")
}
