package web

import (
	"net/http"

	"review-front/line"
)

// command sends the command that the path names; the body has its other keys. A refusal is told by the status too, so
// that who sends one command, as from a timer, sees by that whether it was accepted.
func (s *Server) command(w *answered, r *http.Request, keys map[string]string) {
	body, ok := s.taken(w, r)
	if !ok {
		return
	}
	l, ok := line.Commanding(keys["command"], body)
	if !ok {
		bad("the body isn't one JSON object").send(w)
		return
	}
	if len(l) > line.Limit {
		refuse(w, []byte(line.TooLong))
		return
	}
	if !s.mayAll(w, r, l) {
		return
	}
	known, ok := knownOf(w, r)
	if !ok {
		return
	}
	if kind, _ := line.Read(l); known != nil && kind != line.Edit {
		bad("a command with " + matchHeader + " is an edit").send(w)
		return
	}
	if given := r.Header.Values(keyHeader); len(given) > 0 {
		s.keyedOne(w, r, given, l, known)
		return
	}
	client := s.Keeper.Sessions.NewClient()
	defer client.Close()
	s.one(w, r, client, string(l), known)
}
