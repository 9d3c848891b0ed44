package web

import (
	"context"
	"errors"
	"fmt"
	"net"
	"net/http"
	"os/user"
	"strconv"
	"time"

	"review-front/access"
	"review-front/line"
	"review-front/rights"
)

// needs has the command that somebody has to be allowed for a path which isn't that of a line.
var needs = map[string]string{
	"/notices": "notices", "/metrics": access.Metrics, "/snapshot": "dump", "/snapshot/keys": "dump",
	"/snapshot/campaigns": "dump",
	"/edits":              "changes", "/head": "changes", "/campaigns/{campaign}": "campaign.show",
	"/campaigns/{campaign}/events": "campaign.show", "/campaigns/{campaign}/tasks": "campaign.tasks",
	"/campaigns/{campaign}/evidence": "campaign.evidence",
	"/campaigns/{campaign}/items":    "campaign.items", "/campaigns/{campaign}/items/{item}": "campaign.items",
	"/campaigns/{campaign}/keep":   "campaign.keep",
	"/campaigns/{campaign}/revoke": "campaign.revoke", "/campaigns/{campaign}/pass": "campaign.pass",
	"/campaigns/{campaign}/undo": "campaign.undo", "/campaigns/{campaign}/close": "campaign.close",
	"/documents/check": "documents", "/called": "attributes",
	"/sessions": "mark", "/sessions/{session}": "mark", "/sessions/{session}/mark": "mark",
	"/sessions/{session}/notices": "notices",
	"/access/v1/search/subject":   "cells", "/access/v1/search/action": "cells", "/access/v1/search/resource": "cells",
}

// forKnown are the paths that whoever is known may ask for, as those whose lines are looked at one by one.
var forKnown = map[string]bool{
	"/": true, "/openapi.json": true, "/lines": true, "/sessions/{session}/lines": true, "/commands/{command}": true,
	"/access/v1/evaluation": true, "/access/v1/evaluations": true, kubernetesPath: true, "/campaigns": true,
	"/whoami": true,
}

// forAll are the paths that whoever reaches the front may ask for.
var forAll = map[string]bool{
	"/healthz": true, "/readyz": true, "/.well-known/authzen-configuration": true, "/desk/{file}": true,
}

// admit finds out who asks. Where he isn't known it answers itself, the later the more often that was so.
func (s *Server) admit(w *answered, r *http.Request) (*http.Request, bool) {
	if s.Access == nil && !s.hasShown(r) || forAll[r.URL.Path] || isDesk(r) {
		return r, true
	}
	visit := &visit{server: s}
	visit.request = r.WithContext(context.WithValue(r.Context(), visiting{}, visit))
	_, err := visit.now()
	if err == nil {
		return visit.request, true
	}
	address := addressOfRequest(r)
	s.Log.Error("somebody was refused", "address", address, "path", r.URL.Path, "why", err)
	if s.Access != nil {
		wait, soon := s.Access.Refused(address)
		timer := time.NewTimer(wait)
		defer timer.Stop()
		select {
		case <-timer.C:
		case <-r.Context().Done():
		}
		if !soon {
			problem{Title: "too many attempts", Status: http.StatusTooManyRequests, after: int(wait.Seconds())}.send(w)
			return r, false
		}
		w.Header().Set("WWW-Authenticate", "Bearer")
	}
	problem{Title: "not known", Status: http.StatusUnauthorized, Detail: err.Error()}.send(w)
	return r, false
}

// addressOfRequest is the address of who asks, without its port, or his user at a Unix socket.
func addressOfRequest(r *http.Request) string {
	if name, local := r.Context().Value(peer{}).(string); local {
		return "the user " + name
	}
	if host, _, err := net.SplitHostPort(r.RemoteAddr); err == nil {
		return host
	}
	return r.RemoteAddr
}

// wayOf is how somebody shows who he is, beside a token.
func wayOf(r *http.Request) access.Way {
	if r.TLS != nil && len(r.TLS.PeerCertificates) > 0 {
		return access.Way{Certificate: nameIn(r.TLS.PeerCertificates[0])}
	}
	name, _ := r.Context().Value(peer{}).(string)
	return access.Way{User: name}
}

// peer is the key of the user at the other end of a Unix socket in a request's context.
type peer struct{}

// keepPeer puts that user where its requests find him.
func keepPeer(ctx context.Context, c net.Conn) context.Context {
	if limited, ok := c.(*placed); ok {
		c = limited.Conn
	}
	if number, ok := userOf(c); ok {
		name := strconv.FormatUint(uint64(number), 10)
		if known, err := user.LookupId(name); err == nil {
			name = known.Username
		}
		return context.WithValue(ctx, peer{}, name)
	}
	return ctx
}

// mayAsk says whether who asks may ask for a route, and answers itself where he may not. A path of which nothing is said
// here is for nobody.
func (s *Server) mayAsk(w http.ResponseWriter, r *http.Request, route route) bool {
	if s.Access == nil || forAll[route.path] || s.byLines[route.path] {
		return true
	}
	return s.may(w, r, needs[route.path])
}

// may says whether who asks may send a command about nothing in particular, and answers itself where he may not.
func (s *Server) may(w http.ResponseWriter, r *http.Request, command string) bool {
	return s.mayAll(w, r, commanded(command))
}

// commanded is the line of a command about nothing in particular.
func commanded(command string) []byte { return []byte(`{"do":` + quoted(command) + `}`) }

// forbidden is the problem of who may not send a command.
func forbidden(who *access.Identity, command string) problem {
	detail := fmt.Sprintf("%s has no role with %s", who.Name, command)
	return problem{Title: "not allowed", Status: http.StatusForbidden, Detail: detail}
}

// judge says why who asks may not send a line, if he may not: the command counts that the program reads.
func (s *Server) judge(v *visit, l []byte) (problem, bool) {
	if v == nil {
		return problem{}, false
	}
	who, err := v.now()
	if err != nil {
		return problemFor(err), true
	}
	if who == nil {
		return problem{}, false
	}
	command, ok := line.Do(l)
	if !ok {
		return bad("a line isn't one JSON object with a text at do"), true
	}
	if !who.May(command) {
		return forbidden(who, command), true
	}
	if err := who.Gives.CheckLine(l); errors.Is(err, access.ErrShape) {
		told, _ := problemOf([]byte(`{"refused":14}`)) // as the program would refuse it
		return told, true
	} else if err != nil {
		return problem{Title: "not allowed", Status: http.StatusForbidden, Detail: err.Error()}, true
	}
	if s.Rights == nil {
		return problem{}, false
	}
	permitted, err := s.Rights.May(rights.Subject{Name: who.Name, Claims: who.Claims}, command, l)
	if errors.Is(err, rights.ErrClaims) {
		return problem{Title: "not allowed", Status: http.StatusForbidden, Detail: err.Error()}, true
	}
	if err != nil {
		return problemFor(err), true
	}
	if !permitted {
		detail := fmt.Sprintf("no policy lets %s send this %s", who.Name, command)
		return problem{Title: "not allowed", Status: http.StatusForbidden, Detail: detail}, true
	}
	return problem{}, false
}

// still says why who asks may not send a line any more that he could when his body was read.
func (s *Server) still(ctx context.Context, l []byte) error {
	if told, wrong := s.judge(visitIn(ctx), l); wrong {
		return &forbids{told}
	}
	return nil
}

// mayAll says whether who asks may send all of some lines, and answers itself where he may not.
func (s *Server) mayAll(w http.ResponseWriter, r *http.Request, lines ...[]byte) bool {
	for _, l := range lines {
		if told, wrong := s.judge(visitIn(r.Context()), l); wrong {
			told.send(w)
			return false
		}
	}
	return true
}
