package web

import (
	"net/http"
	"strings"

	"review-front/check"
)

// reasonHeader is the field that says why a request isn't to be passed on.
const reasonHeader = "Reason"

// asksCheck says whether a proxy asks about a request of somebody.
func (s *Server) asksCheck(r *http.Request) bool {
	return s.Check != nil && (r.URL.Path == check.Path || strings.HasPrefix(r.RequestURI, check.Path+"/"))
}

// asCheck has whatever is wrong with what a proxy asks be told by a reason.
func (s *Server) asCheck(w *answered, r *http.Request) { w.check = s.asksCheck(r) }

// checkRoutes is the path at which proxies ask, where a file says how.
func (s *Server) checkRoutes() []route {
	serve := func(w *answered, r *http.Request, _ map[string]string) { s.check(w, r) }
	return []route{{http.MethodGet, check.Path, serve}}
}

// check answers a proxy whether it may pass a request on: by 204, 401 or 403. Pages of other sites lead to what is
// behind the proxy, so it isn't looked at whether one does.
func (s *Server) check(w *answered, r *http.Request) {
	w.Header().Set("Cache-Control", "no-store")
	mapping := s.Check.Now()
	if mapping.ByFields() && !s.asksByFields(w, r) {
		return
	}
	known := check.Known{NameIn: nameIn}
	if s.Access != nil {
		known.Claims = s.Access.Claims
	}
	request, no := mapping.Asked(r, known)
	if no != nil {
		if no.Challenge != "" && no.Status == http.StatusUnauthorized {
			w.Header().Set("WWW-Authenticate", no.Challenge)
		}
		title := "not allowed"
		if no.Status == http.StatusUnauthorized {
			title = "not known"
		}
		problem{Title: title, Status: no.Status, Detail: no.Reason}.send(w)
		return
	}
	all, told := s.askRequests(r.Context(), [][]byte{request})
	if told != nil {
		told.send(w)
		return
	}
	s.Meter.Decision(decisionOf(all[0].reply.Body))
	s.keepAll(r, all)
	tellSerial(w, all[0].reply.Serial)
	outcome := mapping.Outcome(all[0].reply.Body)
	for name, value := range outcome.Fields {
		w.Header().Set(name, value)
	}
	if outcome.Status == http.StatusForbidden {
		problem{Title: "not allowed", Status: outcome.Status, Detail: outcome.Reason}.send(w)
		return
	}
	w.WriteHeader(outcome.Status)
}

// asksByFields sees that a proxy asks at the one path, by a method that reads, where fields tell what is asked.
func (s *Server) asksByFields(w *answered, r *http.Request) bool {
	if r.URL.Path != check.Path {
		unknown().send(w)
		return false
	}
	if r.Method != http.MethodGet && r.Method != http.MethodHead {
		w.Header().Set("Allow", http.MethodGet)
		problem{Title: "no such method", Status: http.StatusMethodNotAllowed}.send(w)
		return false
	}
	return true
}

// reasoned is a problem as a proxy is told it: what is wrong with a request that the program doesn't take is a reason
// not to pass it on.
func (p problem) reasoned(w http.ResponseWriter) problem {
	switch p.Status {
	case http.StatusBadRequest, http.StatusConflict, http.StatusRequestEntityTooLarge, http.StatusUnprocessableEntity:
		p.Status = http.StatusForbidden
	}
	reason := p.Detail
	if reason == "" {
		reason = p.Title
	}
	w.Header().Set(reasonHeader, string(beginning([]byte(strings.Map(inField, reason)))))
	return p
}

// inField is a sign as a field of a head can have it.
func inField(r rune) rune {
	if r < ' ' || r >= 0x7f {
		return '?'
	}
	return r
}
