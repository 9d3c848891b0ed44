package web

import "net/http"

// head gives the head of the chain of the journal behind the last edit that is on disk: who keeps it can see later that
// no edit up to it was changed.
func (s *Server) head(w *answered, r *http.Request, _ map[string]string) {
	if !s.stands(w, r) {
		return
	}
	line, err := s.Head()
	if err != nil {
		problemFor(err).send(w)
		return
	}
	sendJSON(w, line)
}
