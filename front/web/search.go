package web

import (
	"context"
	"fmt"
	"net/http"
	"time"

	"review-front/authzen"
)

const (
	// searchTries is how often a search is begun again where another name was listed, or one wasn't any more, before
	// all was asked.
	searchTries = 5
	searchPause = 20 * time.Millisecond
)

// search answers a search for a part: from the table where the question holds names of it alone, and else by asking for
// each name that is listed.
func (s *Server) search(sought authzen.Part) func(*answered, *http.Request, map[string]string) {
	return func(w *answered, r *http.Request, _ map[string]string) {
		root, body, ok := s.authzenBody(w, r)
		if !ok {
			return
		}
		search, err := s.Authzen.Search(root, sought)
		if err != nil {
			sendAuthzenFault(w, err)
			return
		}
		names, serial, told := s.found(r.Context(), search)
		if told != nil {
			sendAuthzenProblem(w, told)
			return
		}
		response, err := search.Found(names)
		if err != nil {
			sendAuthzenError(w, http.StatusInternalServerError, err.Error())
			return
		}
		s.keep(r, body, response, serial)
		tellSerial(w, serial)
		sendJSON(w, response)
	}
}

// found is the names for which the answer is Permit, and of which state that is.
func (s *Server) found(ctx context.Context, search authzen.Search) ([]string, uint64, *problem) {
	if search.IsPlain() {
		names, serial, inTable, told := s.inTable(ctx, search)
		if inTable || told != nil {
			return names, serial, told
		}
	}
	for try := 0; try < searchTries; try++ {
		names, from, told := s.listed(ctx, search.Sought())
		if told != nil {
			return nil, 0, told
		}
		permitted, serial, told := s.permitted(ctx, search, search.Candidates(names), from)
		if told != nil || serial >= from && s.listing.since(from) {
			return permitted, serial, told
		}
		select {
		case <-time.After(searchPause):
		case <-ctx.Done():
		}
	}
	told := problemFor(errBetween)
	return nil, 0, &told
}

// inTable is what the table says of a search. It is false where a name of the question isn't listed, of which the table
// says nothing.
func (s *Server) inTable(ctx context.Context, search authzen.Search) ([]string, uint64, bool, *problem) {
	l, err := search.Cells()
	if err != nil {
		told := bad(err.Error())
		return nil, 0, false, &told
	}
	var read struct {
		Cells []struct{ Person, Action, Resource string }
	}
	serial, told := s.reported(ctx, l, &read)
	if told != nil {
		if told.Refused == notThere {
			told = nil
		}
		return nil, 0, false, told
	}
	var names []string
	for _, cell := range read.Cells {
		switch search.Sought() {
		case authzen.Subject:
			names = append(names, cell.Person)
		case authzen.Action:
			names = append(names, cell.Action)
		case authzen.Resource:
			names = append(names, cell.Resource)
		}
	}
	return names, serial, true, nil
}

// notThere is the number of the refusal of a name that isn't listed.
const notThere = 7

// permitted asks for each candidate, and gives those for which the answer is Permit, and of which state that is;
// without candidates as told.
func (s *Server) permitted(
	ctx context.Context, search authzen.Search, candidates []string, at uint64,
) ([]string, uint64, *problem) {
	if len(candidates) > mostTogether {
		return nil, 0, &problem{
			Title: "too many questions", Status: http.StatusUnprocessableEntity,
			Detail: fmt.Sprintf("it would be asked for each of %d names, and at most %d are", len(candidates), mostTogether),
		}
	}
	var questions []authzen.Question
	for _, name := range candidates {
		questions = append(questions, search.With(name))
	}
	requests, err := requestsOf(questions)
	if err != nil {
		return nil, 0, misread(err)
	}
	all, told := s.askRequests(ctx, requests)
	if told != nil {
		return nil, 0, told
	}
	var names []string
	for i, one := range all {
		if at = one.reply.Serial; decisionOf(one.reply.Body) == "Permit" {
			names = append(names, candidates[i])
		}
	}
	return names, at, nil
}
