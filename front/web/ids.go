package web

import (
	"context"
	"encoding/json"
	"fmt"
	"net/http"
	"sort"
	"strings"

	"review-front/line"
)

// noCells is the reply to by_rule where no cell is decided so.
const noCells = `{"by_rule":[]}`

// mostNear is how many ids are told that are near to one that isn't there.
const mostNear = 3

// element is as much of a stored document as tells ids: a policy or a set, with what stands in it.
type element struct {
	Policy    *struct{ PolicyId string }
	PolicySet *struct {
		PolicySetId string
		Children    []element
	}
}

// ids puts the ids of an element and of those within it into a set.
func (e element) ids(into map[string]bool) {
	if e.Policy != nil {
		into[e.Policy.PolicyId] = true
	}
	if e.PolicySet != nil {
		into[e.PolicySet.PolicySetId] = true
		for _, child := range e.PolicySet.Children {
			child.ids(into)
		}
	}
}

// byRule answers which cells a rule decides. Where that is none, and no stored document and no element within one has
// the id, it isn't found: who asks has misspelled it.
func (s *Server) byRule(q question) func(*answered, *http.Request, map[string]string) {
	asking := s.asking(q)
	return func(w *answered, r *http.Request, inPath map[string]string) {
		l, err := q.line(inPath, withoutAt(r.URL.RawQuery))
		_, then := r.URL.Query()[atKey]
		if err != nil || then || len(l) > line.Limit {
			asking(w, r, inPath)
			return
		}
		if !s.mayAll(w, r, l) || !s.stands(w, r) {
			return
		}
		reply := s.Keeper.Report(r.Context(), l)
		if reply.Err == nil && reply.Rest == nil && string(reply.Body) == noCells {
			if told := s.unknownID(r, l); told != nil {
				told.send(w)
				return
			}
		}
		sendReply(w, reply)
	}
}

// unknownID is the problem of the policy of a line that no element has, if none has it. Who may not read documents
// isn't told which ids are near.
func (s *Server) unknownID(r *http.Request, l []byte) *problem {
	var asked struct{ Policy string }
	if err := json.Unmarshal(l, &asked); err != nil {
		return nil
	}
	stored, told := s.storedIDs(r.Context())
	if told != nil || stored[asked.Policy] {
		return told
	}
	detail := fmt.Sprintf("no stored policy or policy set, and no element within one, has the id %q", asked.Policy)
	_, silent := s.judge(visitIn(r.Context()), []byte(`{"do":"documents"}`))
	if near := nearest(asked.Policy, stored); len(near) > 0 && !silent {
		detail += "; near are " + strings.Join(near, ", ")
	}
	return &problem{Title: "no such policy", Status: http.StatusNotFound, Detail: detail}
}

// storedIDs are the ids of all stored documents, and of the elements within them.
func (s *Server) storedIDs(ctx context.Context) (map[string]bool, *problem) {
	var read struct{ Dump []string }
	if _, told := s.reported(ctx, []byte(`{"do":"dump"}`), &read); told != nil {
		return nil, told
	}
	stored := map[string]bool{}
	for _, written := range read.Dump {
		var one struct{ Document element }
		if line.Command([]byte(written)) == "policy.add" && json.Unmarshal([]byte(written), &one) == nil {
			one.Document.ids(stored)
		}
	}
	return stored, nil
}

// nearest are the ids that differ least from one, each quoted: by no more than a third of its letters.
func nearest(id string, among map[string]bool) []string {
	type near struct {
		id   string
		away int
	}
	var found []near
	for one := range among {
		if away := distance([]rune(id), []rune(one)); 3*away <= len([]rune(id)) {
			found = append(found, near{one, away})
		}
	}
	sort.Slice(found, func(i, j int) bool {
		return found[i].away < found[j].away || found[i].away == found[j].away && found[i].id < found[j].id
	})
	var told []string
	for _, one := range found {
		if len(told) == mostNear {
			break
		}
		told = append(told, fmt.Sprintf("%q", one.id))
	}
	return told
}

// distance is by how many letters that are put in, left out or exchanged two texts differ.
func distance(a, b []rune) int {
	row := make([]int, len(b)+1)
	for j := range row {
		row[j] = j
	}
	for i := range a {
		diagonal := row[0]
		row[0] = i + 1
		for j := range b {
			least := diagonal
			if a[i] != b[j] {
				least++
			}
			for _, other := range []int{row[j] + 1, row[j+1] + 1} {
				if other < least {
					least = other
				}
			}
			diagonal, row[j+1] = row[j+1], least
		}
	}
	return row[len(b)]
}
