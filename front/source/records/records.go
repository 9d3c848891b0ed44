// Package records reads what a company keeps: records of a file, of a command's output, of a directory or a database,
// and makes names and rows of them. All is read and checked before anything of it is used.
package records

import (
	"context"
	"errors"
	"fmt"
	"sort"
	"strings"

	"review-front/source/form"
	"review-front/source/values"
)

// mostFaults is how many are told.
const mostFaults = 10

// Fields are those of a record, each with its values.
type Fields = values.Fields

// take is called with each record, and where it stands.
type take func(place string, fields Fields)

// Entity is a name with the values of its attributes.
type Entity = values.Entity

// Read reads all entities of a kind, by their names, or says why there are none. `kept` is what an earlier reading
// left.
func Read(ctx context.Context, s *form.Source, kind *form.Kind, kept *Kept) (map[string]*Entity, error) {
	all := &reading{kind: kind, entities: map[string]*Entity{}, seen: map[string]bool{}}
	var err error
	switch {
	case kind.CSV != nil:
		err = readCSV(ctx, s, kind.CSV, all)
	case kind.Lines != nil:
		err = readLines(ctx, s, kind.Lines, all)
	case kind.LDAP != nil:
		err = readLDAP(ctx, s, kind, kept, all)
	default:
		err = readPostgres(ctx, s, kind.Postgres, all)
	}
	if err != nil {
		return nil, err
	}
	return all.entities, all.wrong()
}

// reading is what was read so far, and what is wrong with it.
type reading struct {
	kind     *form.Kind
	entities map[string]*Entity
	seen     map[string]bool // fields of which some record had one
	faults   []string
	more     int
}

// fault keeps what is wrong with a record.
func (r *reading) fault(place string, err error) {
	if len(r.faults) == mostFaults {
		r.more++
		return
	}
	r.faults = append(r.faults, place+": "+err.Error())
}

// wrong is all that is wrong.
func (r *reading) wrong() error {
	if len(r.faults) > 0 {
		told := strings.Join(r.faults, "\n")
		if r.more > 0 {
			told += fmt.Sprintf("\nand %d more", r.more)
		}
		return errors.New(told)
	}
	var missing []string
	for field, needed := range r.kind.Fields() {
		if len(r.entities) > 0 && needed && !r.seen[field] {
			missing = append(missing, fmt.Sprintf("%q", field))
		}
	}
	if sort.Strings(missing); len(missing) > 0 {
		return fmt.Errorf(`no record has %s: say "optional" of an attribute that none may have`, strings.Join(missing, ", "))
	}
	return nil
}

// take takes a record.
func (r *reading) take(place string, fields Fields) {
	for field, values := range fields {
		if len(values) > 0 && !r.seen[field] {
			r.seen[field] = true
		}
	}
	entity, err := values.Of(r.kind, fields)
	if err != nil {
		r.fault(place, err)
		return
	}
	if other := r.entities[entity.Name]; other != nil {
		r.fault(place, fmt.Errorf("%q stands at %s already", entity.Name, other.Place))
		return
	}
	entity.Place = place
	r.entities[entity.Name] = entity
}

// inOrder are fields in the order of their bytes.
func inOrder(fields map[string]bool) []string {
	all := make([]string, 0, len(fields))
	for field := range fields {
		all = append(all, field)
	}
	sort.Strings(all)
	return all
}
