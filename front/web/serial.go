package web

import (
	"fmt"
	"net/http"
	"strconv"
)

// The fields of heads that tell serials: of an answer, how many edits it knows of, and of a request, of how many its
// answer has to know.
const (
	serialHeader  = "Review-Serial"
	atLeastHeader = "Review-At-Least"
)

// tellSerial says in the head of an answer how many edits it knows of.
func tellSerial(w http.ResponseWriter, serial uint64) {
	w.Header()[serialHeader] = []string{strconv.FormatUint(serial, 10)}
}

// reach waits until there are as many edits as a request asks for, and answers itself where there aren't.
func (s *Server) reach(w http.ResponseWriter, r *http.Request) bool {
	given := r.Header[atLeastHeader]
	if len(given) == 0 {
		return true
	}
	least, err := strconv.ParseUint(given[0], 10, 64)
	if err != nil || len(given) > 1 {
		bad(fmt.Sprintf("%s is one serial", atLeastHeader)).send(w)
		return false
	}
	if err := s.Keeper.Reach(r.Context(), least); err != nil {
		problemFor(err).send(w)
		return false
	}
	return true
}

// stands waits until the table's program answers, and knows of as many edits as a request asks for. It answers itself
// where that isn't so.
func (s *Server) stands(w http.ResponseWriter, r *http.Request) bool {
	if err := s.Keeper.Await(r.Context()); err != nil {
		problemFor(err).send(w)
		return false
	}
	return s.reach(w, r)
}
