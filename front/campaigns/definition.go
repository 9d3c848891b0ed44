// Package campaigns has reviews of access: somebody signs for each answer of a scope that it may stay, and a sign-off
// stands until an edit changes its answer. Campaigns and acts are records of the journal, between edits. An act is
// judged at its place there, by what the program answers at that place; what edits changed says which sign-offs stand.
package campaigns

import (
	"bytes"
	"encoding/json"
	"errors"
	"fmt"
	"io"
	"regexp"
	"strings"
	"time"
)

// The words for what makes a sign-off end.
const (
	OnAnswer   = "answer"   // whatever of the answer changes
	OnDecision = "decision" // another decision alone
)

// day is how days are written.
const day = "2006-01-02"

// Definition is what a campaign is, as whoever opens it says it.
type Definition struct {
	Name      string     `json:"name"`
	Scope     Scope      `json:"scope"`
	Reviewers []Reviewer `json:"reviewers"`
	// Ends is the last day (UTC) on which it may be signed; nothing: it ends when somebody ends it.
	Ends string `json:"ends,omitempty"`
	// Remind are days on which reviewers are reminded of what is open.
	Remind []string `json:"remind,omitempty"`
	// On says what ends a sign-off: `answer`, or `decision`.
	On string `json:"on,omitempty"`
	// After is the campaign from which sign-offs that still stand are taken over.
	After string `json:"after,omitempty"`
	// Oldest is how old such a sign-off may be, in days, as 365d; nothing: as old as it is.
	Oldest string `json:"oldest,omitempty"`
	// Self says that somebody may sign for herself.
	Self bool `json:"self,omitempty"`
}

// Scope says which cells are to be signed.
type Scope struct {
	People    Part     `json:"people,omitempty"`
	Actions   Part     `json:"actions,omitempty"`
	Resources Part     `json:"resources,omitempty"`
	Decisions []string `json:"decisions,omitempty"` // nothing: Permit
}

// Part says which names of a list are meant: those that one of Names has, and for which each of Where holds.
type Part struct {
	Names []string `json:"names,omitempty"` // nothing: all; an asterisk at the end: all that begin so
	Where []Where  `json:"where,omitempty"`
}

// Where says that an attribute of a name has one of some values.
type Where struct {
	Attribute string   `json:"attribute"`
	Values    []string `json:"values"`
}

// Reviewer says who reviews: somebody by name, for some names or for all, or whoever an attribute of the person or of
// the resource names.
type Reviewer struct {
	Name      string   `json:"name,omitempty"`
	People    []string `json:"people,omitempty"`
	Actions   []string `json:"actions,omitempty"`
	Resources []string `json:"resources,omitempty"`
	Person    string   `json:"person,omitempty"`   // an attribute of the person
	Resource  string   `json:"resource,omitempty"` // an attribute of the resource
}

var (
	isName   = regexp.MustCompile(`^[A-Za-z0-9][A-Za-z0-9._-]{0,63}$`)
	isOldest = regexp.MustCompile(`^[1-9][0-9]{0,4}d$`)
)

// decisions are those that a scope may have.
var decisions = map[string]bool{
	"Permit": true, "Deny": true, "NotApplicable": true, "Indeterminate{P}": true, "Indeterminate{D}": true,
	"Indeterminate{DP}": true,
}

// Define reads a definition, in which each key has to be known, and puts what it leaves out in its place.
func Define(written []byte) (*Definition, error) {
	d := &Definition{}
	from := json.NewDecoder(bytes.NewReader(written))
	from.DisallowUnknownFields()
	if err := from.Decode(d); err != nil {
		return nil, err
	}
	if _, err := from.Token(); err != io.EOF {
		return nil, errors.New("something stands behind the object")
	}
	if len(d.Scope.Decisions) == 0 {
		d.Scope.Decisions = []string{"Permit"}
	}
	if d.On == "" {
		d.On = OnAnswer
	}
	return d, d.wrong()
}

// wrong says what is wrong with a definition.
func (d *Definition) wrong() error {
	if !isName.MatchString(d.Name) {
		return errors.New("a name has at most 64 letters, digits, and . _ - behind the first")
	}
	if d.On != OnAnswer && d.On != OnDecision {
		return errors.New("on is answer or decision")
	}
	for _, one := range d.Scope.Decisions {
		if !decisions[one] {
			return fmt.Errorf("%q is no decision", one)
		}
	}
	for _, one := range append(append([]string(nil), d.Remind...), d.Ends) {
		if _, err := time.Parse(day, one); err != nil && one != "" {
			return fmt.Errorf("%q is no day, as 2026-12-31", one)
		}
	}
	if d.Oldest != "" && (d.After == "" || !isOldest.MatchString(d.Oldest)) {
		return errors.New("oldest is a number of days, as 365d, beside after")
	}
	for _, part := range []Part{d.Scope.People, d.Scope.Actions, d.Scope.Resources} {
		for _, where := range part.Where {
			if where.Attribute == "" || len(where.Values) == 0 {
				return errors.New("where has an attribute, and values of it")
			}
		}
	}
	return d.wrongReviewers()
}

// IsOldest says whether this is a number of days, or nothing.
func IsOldest(written string) bool { return written == "" || isOldest.MatchString(written) }

// wrongReviewers says what is wrong with the reviewers: each has one way, and behind all others stands a name for
// everything.
func (d *Definition) wrongReviewers() error {
	for _, one := range d.Reviewers {
		ways := 0
		for _, way := range []string{one.Name, one.Person, one.Resource} {
			if way != "" {
				ways++
			}
		}
		if ways != 1 || one.Name == "" && len(one.People)+len(one.Actions)+len(one.Resources) > 0 {
			return errors.New("a reviewer has one of name, person and resource, and a name may have people, actions, resources")
		}
	}
	if len(d.Reviewers) == 0 || !d.Reviewers[len(d.Reviewers)-1].always() {
		return errors.New("the last reviewer is a name alone, for whatever nobody before it reviews")
	}
	return nil
}

// always says whether this is a reviewer of everything.
func (r Reviewer) always() bool {
	return r.Name != "" && len(r.People)+len(r.Actions)+len(r.Resources) == 0
}

// has says whether a pattern of a list has a name; an empty list has each.
func has(patterns []string, name string) bool {
	for _, one := range patterns {
		if one == name || strings.HasSuffix(one, "*") && strings.HasPrefix(name, strings.TrimSuffix(one, "*")) {
			return true
		}
	}
	return len(patterns) == 0
}

// oldest is before which time a sign-off was made that is too old to be taken over, if there is one.
func (d *Definition) oldest(opened time.Time) (time.Time, bool) {
	days := 0
	if _, err := fmt.Sscanf(d.Oldest, "%dd", &days); err != nil {
		return time.Time{}, false
	}
	return opened.AddDate(0, 0, -days), true
}

// endedAt says whether the day on which a campaign ends is over.
func (d *Definition) endedAt(at time.Time) bool {
	return d.Ends != "" && at.UTC().Format(day) > d.Ends
}
