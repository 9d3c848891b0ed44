package web

import (
	"bytes"
	"encoding/json"
	"errors"
	"net/http"
	"net/url"
	"sort"
	"strings"
	"unicode/utf8"

	"review-front/desk"
	"review-front/keeper"
)

// route is a path, its method and what answers it. A part of the path in braces is a key.
type route struct {
	method string
	path   string
	serve  func(w *answered, r *http.Request, keys map[string]string)
}

func (r route) name() string { return r.path }

// routes has all paths but /authorize.
func (s *Server) routes() []route {
	all := []route{
		{http.MethodGet, "/", s.home},
		{http.MethodGet, "/openapi.json", s.openapi},
		{http.MethodGet, "/desk/{file}", s.deskFile},
		{http.MethodGet, "/whoami", s.whoami},
		{http.MethodPost, "/lines", s.freeLines},
		{http.MethodPost, "/commands/{command}", s.command},
		{http.MethodPost, "/documents/check", s.checkDocument},
		{http.MethodPost, kubernetesPath, s.kubernetes},
		{http.MethodGet, "/notices", s.notices},
		{http.MethodGet, "/edits", s.edits},
		{http.MethodGet, "/head", s.head},
		{http.MethodPost, "/sessions", s.openSession},
		{http.MethodDelete, "/sessions/{session}", s.endSession},
		{http.MethodPost, "/sessions/{session}/lines", s.sessionLines},
		{http.MethodPost, "/sessions/{session}/mark", s.mark},
		{http.MethodGet, "/sessions/{session}/notices", s.changed},
		{http.MethodGet, "/healthz", s.health},
		{http.MethodGet, "/readyz", s.ready},
		{http.MethodGet, "/metrics", func(w *answered, r *http.Request, _ map[string]string) { s.metrics.ServeHTTP(w, r) }},
	}
	if s.Called != "" {
		all = append(all, route{http.MethodGet, "/called", s.called})
	}
	all = append(all, s.campaignRoutes()...)
	for _, q := range questions {
		serve := s.asking(q)
		switch q.do {
		case "changes":
			serve = s.changedSince(q)
		case "by_rule":
			serve = s.byRule(q)
		}
		all = append(all, route{http.MethodGet, q.path, serve})
	}
	if s.Keeper.Stream != nil {
		all = append(all, route{http.MethodGet, "/snapshot", s.snapshot})
		all = append(all, route{http.MethodGet, "/snapshot/keys", s.keysKnown})
		all = append(all, route{http.MethodGet, "/snapshot/campaigns", s.campaignsKnown})
	}
	if s.Authzen != nil {
		all = append(all, s.authzenRoutes()...)
	}
	if s.Check != nil {
		all = append(all, s.checkRoutes()...)
	}
	if s.Keeper.Provision != nil {
		all = append(all, s.scimRoutes()...)
	}
	return all
}

// partsOf reads the parts of a path between its slashes, each with its escapes.
func partsOf(u *url.URL) ([]string, error) {
	parts := strings.Split(strings.TrimPrefix(u.EscapedPath(), "/"), "/")
	for i, part := range parts {
		read, err := url.PathUnescape(part)
		if err != nil {
			return nil, err
		}
		if !utf8.ValidString(read) {
			return nil, errors.New("it isn't UTF-8")
		}
		parts[i] = read
	}
	return parts, nil
}

// find is the route of a path, with what stands at its keys: that of a method, if there is one.
func (s *Server) find(method string, parts []string) (found route, keys map[string]string, ok bool) {
	for _, route := range s.known {
		at, matches := route.match(parts)
		if matches && (!ok || route.takes(method)) {
			found, keys, ok = route, at, true
			if route.takes(method) {
				break
			}
		}
	}
	return found, keys, ok
}

// takes says whether a route answers a method.
func (r route) takes(method string) bool {
	return method == r.method || method == http.MethodHead && r.method == http.MethodGet
}

func (r route) match(parts []string) (map[string]string, bool) {
	wanted := strings.Split(strings.TrimPrefix(r.path, "/"), "/")
	if len(wanted) != len(parts) {
		return nil, false
	}
	var keys map[string]string
	for i, part := range wanted {
		if !strings.HasPrefix(part, "{") {
			if part != parts[i] {
				return nil, false
			}
			continue
		}
		if parts[i] == searchPart && strings.HasPrefix(r.path, scimPrefix) {
			return nil, false
		}
		if keys == nil {
			keys = map[string]string{}
		}
		keys[strings.Trim(part, "{}")] = parts[i]
	}
	return keys, true
}

// allowed lists the methods of a path.
func (s *Server) allowed(parts []string) string {
	var methods []string
	for _, route := range s.known {
		if _, ok := route.match(parts); ok {
			methods = append(methods, route.method)
		}
	}
	sort.Strings(methods)
	return strings.Join(methods, ", ")
}

// home tells where requests are answered, as the REST Profile has it, and lists the other paths. A browser gets the
// desk.
func (s *Server) home(w *answered, r *http.Request, _ map[string]string) {
	w.Header().Set("Vary", "Accept")
	if wantsPage(r) {
		s.sendDesk(w, r, desk.Page)
		return
	}
	paths := []string{}
	for _, route := range s.known {
		paths = append(paths, route.method+" "+route.path)
	}
	written, err := json.Marshal(map[string]any{
		"resources": map[string]any{
			"http://docs.oasis-open.org/ns/xacml/relation/pdp": map[string]string{"href": "/authorize"},
		},
		"paths": paths,
	})
	if err != nil {
		problemFor(err).send(w)
		return
	}
	sendJSON(w, written)
}

// sendJSON answers with JSON, and a newline for who reads it at a terminal.
func sendJSON(w http.ResponseWriter, body []byte) {
	w.Header().Set("Content-Type", "application/json")
	body = append(body, '\n')
	digested(w, bytes.NewReader(body))
	// Who has gone isn't told.
	_, _ = w.Write(body)
}

// health says that the front runs.
func (s *Server) health(w *answered, _ *http.Request, _ map[string]string) {
	sendJSON(w, []byte(`{"status":"ok"}`))
}

// ready says whether lines are answered.
func (s *Server) ready(w *answered, _ *http.Request, _ map[string]string) {
	if s.leaving.Load() {
		problemFor(keeper.ErrStopping).send(w)
		return
	}
	if !s.Keeper.Ready() {
		problemFor(keeper.ErrNotReady).send(w)
		return
	}
	told, err := json.Marshal(readiness{Status: "ready", Health: s.Keeper.Health()})
	if err != nil {
		problemFor(err).send(w)
		return
	}
	sendJSON(w, told)
}

// readiness says that lines are answered, and what else somebody may want to look at.
type readiness struct {
	Status string `json:"status"`
	keeper.Health
}
