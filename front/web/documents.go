package web

import (
	"net/http"
	"regexp"
	"strconv"
)

// fault is what is wrong with the text of a policy, and at which of its lines.
type fault struct {
	Line  int    `json:"line"` // 0 where none is told
	Words string `json:"words"`
}

// faultPattern is the form in which the program tells a fault at a place: a pointer, line and column, and words.
var faultPattern = regexp.MustCompile(`(?m)^standard input:(?: [^ ]*:)? line (\d+), column (\d+): (.*)$`)

// faultsIn reads the faults in what `review check` says.
func faultsIn(said []byte) []fault {
	faults := []fault{}
	for _, found := range faultPattern.FindAllSubmatch(said, -1) {
		number, _ := strconv.Atoi(string(found[1]))
		faults = append(faults, fault{number, "column " + string(found[2]) + ": " + string(found[3])})
	}
	return faults
}

// checkDocument tells what is wrong with the text of a policy or a policy set, by `review check` in a process of its
// own.
func (s *Server) checkDocument(w *answered, r *http.Request, _ map[string]string) {
	body, ok := s.taken(w, r)
	if !ok {
		return
	}
	said, isFit, err := s.Keeper.CheckDocument(r.Context(), body)
	if err != nil {
		problemFor(err).send(w)
		return
	}
	faults := faultsIn(said)
	if !isFit && len(faults) == 0 {
		faults = append(faults, fault{0, "it is refused, and no line is told"})
	}
	if isFit {
		faults = []fault{} // what is told then are warnings
	}
	tellJSON(w, map[string]any{"faults": faults})
}
