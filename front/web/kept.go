package web

import (
	"bytes"
	"encoding/json"
	"net/http"
	"regexp"
	"time"

	"review-front/decisions"
	"review-front/keeper"
)

// asked is a request and the response to it.
type asked struct {
	request []byte
	reply   keeper.Reply
}

// keepAll writes down what was decided.
func (s *Server) keepAll(r *http.Request, all []asked) {
	for _, one := range all {
		s.keep(r, one.request, one.reply.Body, one.reply.Serial)
	}
}

// keep writes down a request and the response to it, if decisions are kept.
func (s *Server) keep(r *http.Request, request, response []byte, serial uint64) {
	if s.Decisions == nil {
		return
	}
	// Who may ask was seen before; who has no name asks as nobody.
	by, _ := s.who(r)
	s.Decisions.Keep(decisions.Decision{
		Time: time.Now(), By: by, Path: r.URL.Path, Trace: traceOf(r), Serial: serial,
		Request: request, Response: response,
	})
}

// keepLine writes down what a line asked, if its reply is a response.
func (s *Server) keepLine(r *http.Request, l []byte, reply keeper.Reply) {
	if s.Decisions == nil || reply.Err != nil || !bytes.HasPrefix(reply.Body, responseBegins) {
		return
	}
	var read struct{ Request json.RawMessage }
	if err := json.Unmarshal(l, &read); err != nil {
		s.Log.Error("a decision can't be kept", "error", err)
		return
	}
	s.keep(r, read.Request, reply.Body, reply.Serial)
}

// tracePattern is the form of a `traceparent` (W3C Trace Context).
var tracePattern = regexp.MustCompile(`^[0-9a-f]{2}-[0-9a-f]{32}-[0-9a-f]{16}-[0-9a-f]{2}$`)

// traceOf is the `traceparent` of a request, or nothing where it has none.
func traceOf(r *http.Request) string {
	if given := r.Header.Get("Traceparent"); tracePattern.MatchString(given) {
		return given
	}
	return ""
}
