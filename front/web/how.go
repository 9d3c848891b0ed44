package web

import (
	"errors"
	"fmt"
	"net/http"
	"net/url"
	"strconv"
	"strings"

	"review-front/keeper"
	"review-front/keys"
	"review-front/sessions"
)

const (
	// matchHeader is the field that says how many edits there are to be before one.
	matchHeader = "If-Match"
	// wholeLines is how many edits are made all together at most.
	wholeLines = 1024
)

// how is in which way lines are answered.
type how struct {
	dry    bool    // it is only told what they would change
	whole  bool    // they are made all together, or none of them
	strict bool    // the answer is 200 only where each of them was accepted, or answered
	count  bool    // behind the replies it is told what became of them
	words  bool    // a refusal says why
	known  *uint64 // how many edits there are to be before them, if that is said
}

// howOf reads it from the query and the head, and answers itself where that can't be done: what is meant to change
// nothing isn't taken for what does.
func howOf(w http.ResponseWriter, r *http.Request) (how, bool) {
	var asked how
	query, err := url.ParseQuery(r.URL.RawQuery)
	for name, values := range query {
		known := asked.flags()[name]
		if known == nil || len(values) != 1 || values[0] != "1" {
			err = fmt.Errorf("the query has the key %q", name)
			break
		}
		*known = true
	}
	if err != nil {
		bad("lines have a query of dry=1, whole=1, strict=1, count=1 or words=1").send(w)
		return asked, false
	}
	var ok bool
	if asked.known, ok = knownOf(w, r); !ok {
		return asked, false
	}
	if asked.known != nil && !asked.whole {
		bad("lines with " + matchHeader + " are made with whole=1").send(w)
		return asked, false
	}
	if asked.dry && asked.whole {
		bad("dry=1 makes nothing, whole or not").send(w)
		return asked, false
	}
	if asked.dry && (asked.strict || asked.count || asked.words) {
		bad("dry=1 has no replies to lines").send(w)
		return asked, false
	}
	return asked, true
}

// flags has those that a query may have, by their keys.
func (h *how) flags() map[string]*bool {
	return map[string]*bool{"dry": &h.dry, "whole": &h.whole, "strict": &h.strict, "count": &h.count, "words": &h.words}
}

// knownOf is the serial that a request says in `If-Match`, with or without quotes, or nil.
func knownOf(w http.ResponseWriter, r *http.Request) (*uint64, bool) {
	given := r.Header[matchHeader]
	if len(given) == 0 {
		return nil, true
	}
	known, err := strconv.ParseUint(strings.Trim(given[0], `"`), 10, 64)
	if err != nil || len(given) > 1 {
		bad(matchHeader + " is one serial").send(w)
		return nil, false
	}
	return &known, true
}

// whole makes all edits of a body, or none.
func (s *Server) whole(w *answered, r *http.Request, given []string, how how) {
	body, ok := s.taken(w, r)
	if !ok {
		return
	}
	edits, ok := editsOf(body, wholeLines)
	if !ok {
		bad(fmt.Sprintf("a body that is made whole has edits alone, from 1 to %d", wholeLines)).send(w)
		return
	}
	if !s.mayAll(w, r, edits...) {
		return
	}
	make := func(by string, edits [][]byte, first *keys.Line) []keeper.Reply {
		return s.together(r, by, edits, first, how.known)
	}
	if len(given) > 0 {
		if replies, told, ok := s.once(w, r, given, edits, make); ok {
			s.sendWhole(w, r, how, edits, replies, told)
		}
		return
	}
	by, nobody := s.who(r)
	if nobody != nil {
		nobody.send(w)
		return
	}
	if err := s.Keeper.Await(r.Context()); err != nil {
		problemFor(err).send(w)
		return
	}
	var replies [][]byte
	for _, reply := range make(by, edits, nil) {
		if reply.Err != nil {
			problemFor(reply.Err).send(w)
			return
		}
		replies = append(replies, reply.Body)
	}
	s.sendWhole(w, r, how, edits, replies, nil)
}

// sendWhole answers with the replies to all edits, or the problem for which none is made.
func (s *Server) sendWhole(w *answered, r *http.Request, how how, edits, replies [][]byte, told *problem) {
	if told != nil {
		told.send(w)
		return
	}
	s.sendLines(w, r, how, edits, replies, nil)
}

// together makes edits all together. Where they aren't made the one reply says why.
func (s *Server) together(r *http.Request, by string, edits [][]byte, first *keys.Line, known *uint64) []keeper.Reply {
	calls := make([]*keeper.Call, 0, len(edits))
	for i, l := range edits {
		s.Meter.Line()
		err := s.still(r.Context(), l)
		if err != nil {
			return []keeper.Reply{{Err: err}}
		}
		call, err := keeper.Prepare(l, by, (*sessions.Client)(nil))
		if err != nil {
			return []keeper.Reply{{Err: err}}
		}
		if first != nil {
			of := first.Next(i)
			call.Remember = &of
		}
		calls = append(calls, call)
	}
	replies, err := s.Keeper.Whole(r.Context(), calls, known)
	var part *keeper.Part
	if errors.As(err, &part) {
		s.refuses(by, edits[part.Number-1], part.Reply)
	}
	if err != nil {
		return []keeper.Reply{{Err: err}}
	}
	return replies
}
