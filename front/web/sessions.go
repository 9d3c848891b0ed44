package web

import (
	"net/http"

	"review-front/keeper"
	"review-front/sessions"
)

// resumed waits until the program has its state, before which sessions of before a start aren't known. It answers itself
// where that isn't so.
func (s *Server) resumed(w *answered, r *http.Request) bool {
	err := s.Keeper.Await(r.Context())
	if err != nil {
		problemFor(err).send(w)
	}
	return err == nil
}

// openSession gives a client a session that stays from one request to the next.
func (s *Server) openSession(w *answered, r *http.Request, _ map[string]string) {
	if !s.resumed(w, r) {
		return
	}
	name, err := s.leases.Open()
	if err != nil {
		problemFor(err).send(w)
		return
	}
	w.Header().Set("Location", "/sessions/"+name)
	w.Header().Set("Content-Type", "application/json")
	w.WriteHeader(http.StatusCreated)
	// Who has gone isn't told; his session ends when nobody uses it.
	_, _ = w.Write([]byte(`{"session":` + quoted(name) + "}\n"))
}

// endSession gives a session back.
func (s *Server) endSession(w *answered, r *http.Request, keys map[string]string) {
	if !s.resumed(w, r) {
		return
	}
	if !s.leases.End(keys["session"]) {
		s.ended(keys["session"]).send(w)
		return
	}
	w.WriteHeader(http.StatusNoContent)
}

func noSession() problem {
	return problem{Title: "no such session", Status: http.StatusNotFound, Detail: "it has ended, or there never was one"}
}

// within calls with the client of a session.
func (s *Server) within(w *answered, r *http.Request, keys map[string]string, call func(*sessions.Client)) {
	if !s.resumed(w, r) {
		return
	}
	client, done, ok := s.leases.Use(keys["session"])
	if !ok {
		s.ended(keys["session"]).send(w)
		return
	}
	defer done()
	call(client)
}

// sessionLines answers lines within a session.
func (s *Server) sessionLines(w *answered, r *http.Request, keys map[string]string) {
	s.within(w, r, keys, func(client *sessions.Client) { s.lines(w, r, client) })
}

// mark marks the table for a session.
func (s *Server) mark(w *answered, r *http.Request, keys map[string]string) {
	s.within(w, r, keys, func(client *sessions.Client) { s.one(w, r, client, `{"do":"mark"}`, nil) })
}

// changed tells what changed since a session's mark.
func (s *Server) changed(w *answered, r *http.Request, keys map[string]string) {
	s.within(w, r, keys, func(client *sessions.Client) { s.one(w, r, client, `{"do":"notices"}`, nil) })
}

// one asks one line within a session. `known`, if there is one, is how many edits there are to be before it.
func (s *Server) one(w *answered, r *http.Request, client *sessions.Client, l string, known *uint64) {
	if !s.stands(w, r) {
		return
	}
	by, nobody := s.who(r)
	if nobody != nil {
		nobody.send(w)
		return
	}
	call, err := keeper.Prepare([]byte(l), by, client)
	if err != nil {
		problemFor(err).send(w)
		return
	}
	call.Known = known
	reply := s.sent(r.Context(), call)
	s.keepLine(r, []byte(l), reply)
	s.refuses(by, []byte(l), reply.Body)
	sendReply(w, reply)
}
