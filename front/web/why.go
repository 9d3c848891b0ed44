package web

import (
	"context"
	"encoding/json"
	"fmt"
	"strings"
	"time"

	"review-front/limits"
)

// limitsTime is how long it may take to ask how much of each limit is taken.
const limitsTime = time.Minute

// The refusals that have more words than one sentence.
const (
	refusedDocument = 6
	refusedLimit    = 9
)

// faults has the sub-codes of a document or a reference that is refused.
var faults = map[int]string{
	9: "a key is unknown or missing, or what stands at it has the wrong form",
	8: "an identifier is empty or has more than 256 bytes, or two rules of a policy have the same one",
	7: "a version isn't 1 to 8 numbers of at most 9 digits with dots between them, or a pattern of versions can't be read",
	3: "a rule or policy combining algorithm is unknown",
	1: "a function is unknown",
	4: "a variable is defined twice, not at all, or through itself",
	6: "a list has more than 256 members, or the document more than 65,536 expressions or 32 references",
	5: "expressions or policy sets nest more than 16 deep",
	2: "a data type is unknown, a value isn't of its type, or an expression has the wrong type",
}

// bounded has, of each command that may pass a limit which an option raises, the limits that it may pass.
var bounded = map[string][]string{
	"person.add": {"people", "cells"}, "action.add": {"actions", "cells"}, "resource.add": {"resources", "cells"},
	"policy.add": {"documents"},
}

// reasons says in words why lines of one body are refused.
type reasons struct {
	server *Server
	ended  bool              // the program isn't asked any more
	passed map[string]string // the limit that a command passed, as far as that was asked
	raised map[string]bool   // of which it was said how it is raised
}

// why is the sentence of a refusal of a command.
func (r *reasons) why(command string, number, sub int) string {
	known := refusals[number]
	switch {
	case number == refusedDocument && faults[sub] != "":
		return known.title + ": " + faults[sub]
	case number == refusedLimit:
		return known.title + ": " + r.limit(command)
	case known.sentence == "":
		return "the program refuses it"
	}
	return known.title + ": " + known.sentence
}

// limit says which limit a command would pass, and the first time also how it is raised.
func (r *reasons) limit(command string) string {
	switch {
	case command == "attr.set":
		return "a row has at most 256 values"
	case bounded[command] == nil:
		return "no more edits are counted"
	}
	if r.passed == nil {
		r.passed, r.raised = map[string]string{}, map[string]bool{}
	}
	word, asked := r.passed[command]
	if !asked {
		word = r.which(bounded[command])
		r.passed[command] = word
	}
	why := r.most(word)
	if !r.raised[word] {
		r.raised[word] = true
		why += "; " + r.raises(word)
	}
	return why
}

// extents is as much of the reply to `limits` as is looked at.
type extents struct {
	Limits map[string]struct{ Most, Taken int }
}

// which is the limit that is passed, of those that may be: a list that is full, or else what is made of all lists.
// Where the program can't be asked it may be either.
func (r *reasons) which(words []string) string {
	if len(words) == 1 {
		return words[0]
	}
	if !r.ended {
		ctx, cancel := context.WithTimeout(context.Background(), limitsTime)
		defer cancel()
		var said extents
		reply := r.server.Keeper.Ask(ctx, []byte(`{"do":"limits"}`))
		if reply.Err == nil && json.Unmarshal(reply.Body, &said) == nil && said.Limits != nil {
			if list := said.Limits[words[0]]; list.Taken >= list.Most {
				return words[0]
			}
			return words[1]
		}
	}
	return strings.Join(words, " ")
}

// most says how much the limits of some words allow.
func (r *reasons) most(words string) string {
	var all []string
	for _, word := range strings.Fields(words) {
		all = append(all, fmt.Sprintf("%d %s", r.server.Keeper.Command.Limits.Of(word), word))
	}
	if words == "documents" {
		return "all modules have at most " + all[0]
	}
	return "the table has at most " + strings.Join(all, " and ")
}

// raises says which options raise them.
func (r *reasons) raises(words string) string {
	var all []string
	for _, word := range strings.Fields(words) {
		if r.server.Keeper.Command.Limits.Of(word) < limits.Most(word) {
			all = append(all, "--"+word)
		}
	}
	switch len(all) {
	case 0:
		return "no option raises that"
	case 1:
		return all[0] + " raises it"
	}
	return strings.Join(all, " and ") + " raise them"
}
