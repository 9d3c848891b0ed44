package web

import (
	"encoding/json"
	"errors"
	"net/http"
	"net/url"
	"strconv"
	"strings"

	"review-front/scim"
)

const (
	// scimPrefix begins the paths of SCIM.
	scimPrefix = "/scim/v2/"
	scimType   = "application/scim+json"
	holdPath   = "/scim/hold"
	// searchPart ends the paths of searches, and is no id.
	searchPart = ".search"
	// scimPage is how many resources a list has where nothing is said, and mostScimPage how many at most.
	scimPage     = 100
	mostScimPage = 1000
	// heldAfter is after how many seconds it may be tried again while provisioning is held.
	heldAfter = 300
)

// asScim has a request to SCIM's paths be answered by its rules, whatever is wrong with it.
func (s *Server) asScim(w *answered, r *http.Request) {
	w.scim = s.Keeper.Provision != nil && strings.HasPrefix(r.URL.Path, scimPrefix)
}

// scimRoutes are the paths of SCIM, where a file says which names and rows users have.
func (s *Server) scimRoutes() []route {
	all := []route{
		{http.MethodGet, "/scim/v2/ServiceProviderConfig", s.scimConfiguration},
		{http.MethodGet, "/scim/v2/Schemas", s.scimSchemas},
		{http.MethodGet, "/scim/v2/Schemas/{schema}", s.scimSchemas},
		{http.MethodGet, "/scim/v2/ResourceTypes", s.scimTypes},
		{http.MethodGet, "/scim/v2/ResourceTypes/{name}", s.scimTypes},
		{http.MethodPost, "/scim/v2/.search", s.scimSearch(s.Keeper.Provision.Kinds.All())},
		{http.MethodPost, "/scim/v2/Bulk", s.scimLacks("bulk")},
		{http.MethodGet, holdPath, s.holding},
		{http.MethodPost, holdPath, s.hold},
		{http.MethodDelete, holdPath, s.letOn},
	}
	for _, method := range []string{"GET", "POST", "PUT", "PATCH", "DELETE"} {
		all = append(all, route{method, "/scim/v2/Me", s.scimLacks("/Me")})
	}
	for _, kind := range s.Keeper.Provision.Kinds.All() {
		path := "/scim/v2" + kind.Endpoint
		all = append(all, route{http.MethodPost, path + "/.search", s.scimSearch([]*scim.Kind{kind})},
			route{http.MethodGet, path, s.scimList(kind)}, route{http.MethodPost, path, s.scimCreate(kind)},
			route{http.MethodGet, path + "/{id}", s.scimRead(kind)},
			route{http.MethodPut, path + "/{id}", s.scimWrite(kind, false)},
			route{http.MethodPatch, path + "/{id}", s.scimWrite(kind, true)},
			route{http.MethodDelete, path + "/{id}", s.scimDelete(kind)})
	}
	return all
}

// aboutScim is the line of a command of SCIM, as roles and policies see it.
func aboutScim(command, kind, name string) []byte {
	return []byte(`{"do":` + quoted(command) + `,"kind":` + quoted(kind) + `,"name":` + quoted(name) + `}`)
}

// mayScim says whether who asks may do something by SCIM, and whether the table stands. Else it answers itself.
func (s *Server) mayScim(w *answered, r *http.Request, command, kind, name string) bool {
	return s.mayAll(w, r, aboutScim(command, kind, name)) && s.stands(w, r)
}

// problemOfScim is what is told of a record of SCIM that isn't taken, or a request that is wrong.
func problemOfScim(err error) (problem, bool) {
	var refused *scim.Error
	if !errors.As(err, &refused) {
		return problem{}, false
	}
	told := problem{Title: "not done", Status: refused.Status, Detail: refused.Detail, scimType: refused.Type}
	if refused.Held {
		told.Title, told.after = "held", heldAfter
	}
	return told, true
}

// sendScim answers with the problem as SCIM has it.
func (p problem) sendScim(w http.ResponseWriter) {
	if p.after > 0 {
		w.Header().Set("Retry-After", strconv.Itoa(p.after))
	}
	told := map[string]any{"schemas": []string{scim.ErrorMessage}, "status": strconv.Itoa(p.Status), "detail": p.Detail}
	if p.Detail == "" {
		told["detail"] = p.Title
	}
	if p.scimType != "" {
		told["scimType"] = p.scimType
	}
	sendScim(w, p.Status, told)
}

// sendScim answers with something of SCIM.
func sendScim(w http.ResponseWriter, status int, told any) {
	written, err := json.Marshal(told)
	if err != nil {
		status, written = http.StatusInternalServerError, []byte(`{"schemas":["`+scim.ErrorMessage+`"],"status":"500"}`)
	}
	w.Header().Set("Content-Type", scimType)
	w.WriteHeader(status)
	// Who has gone isn't told.
	_, _ = w.Write(append(written, '\n'))
}

// scimBase is where SCIM's paths are.
func scimBase(r *http.Request) string {
	scheme := "http://"
	if r.TLS != nil {
		scheme = "https://"
	}
	return scheme + r.Host + strings.TrimSuffix(scimPrefix, "/")
}

// scimLacks answers what there isn't here.
func (s *Server) scimLacks(what string) func(*answered, *http.Request, map[string]string) {
	return func(w *answered, r *http.Request, _ map[string]string) {
		if s.mayAll(w, r, aboutScim("scim.read", "", "")) {
			problem{Title: "not here", Status: http.StatusNotImplemented, Detail: "there is no " + what + " here"}.send(w)
		}
	}
}

// scimKeys are the keys of a query of a list, and askedKeys those of one that says which attributes are told.
var (
	askedKeys = []key{{"attributes", textOrNot}, {"excludedAttributes", textOrNot}}
	scimKeys  = append([]key{{"filter", textOrNot}, {"sortBy", textOrNot}, {"sortOrder", textOrNot},
		{"startIndex", wholeOrNo}, {"count", wholeOrNo}}, askedKeys...)
)

// scimQuery reads the query of a request. Keys that aren't known say nothing.
func scimQuery(r *http.Request) (url.Values, error) {
	query, err := url.ParseQuery(r.URL.RawQuery)
	if err != nil {
		return nil, &scim.Error{Status: http.StatusBadRequest, Type: scim.InvalidSyntax, Detail: "the query can't be read"}
	}
	return query, nil
}

// scimAsked reads which attributes are told: of several kinds, where one of them has each.
func scimAsked(kinds []*scim.Kind, only, but []string) (map[string]scim.Asked, error) {
	asked := map[string]scim.Asked{}
	for _, kind := range kinds {
		asked[kind.Name] = scim.Asked{}
	}
	for _, list := range []struct {
		names []string
		isBut bool
	}{{only, false}, {but, true}} {
		for _, name := range list.names {
			known := false
			for _, kind := range kinds {
				p, err := kind.Path(name)
				if err != nil {
					continue
				}
				known = true
				one := asked[kind.Name]
				if list.isBut {
					one.But = append(one.But, p)
				} else {
					one.Only = append(one.Only, p)
				}
				asked[kind.Name] = one
			}
			if !known {
				return nil, &scim.Error{Status: http.StatusBadRequest, Type: scim.InvalidPath,
					Detail: "there is no attribute " + strconv.Quote(name)}
			}
		}
	}
	return asked, nil
}

// parted are the names of a list with commas.
func parted(texts []string) []string {
	var names []string
	for _, text := range texts {
		for _, name := range strings.Split(text, ",") {
			if name = strings.TrimSpace(name); name != "" {
				names = append(names, name)
			}
		}
	}
	return names
}

// scimKept waits until all that a table of resources knows is on disk.
func (s *Server) scimKept(w *answered, r *http.Request) bool {
	if err := s.Keeper.Reach(r.Context(), s.Keeper.Scim.Last()); err != nil {
		problemFor(err).send(w)
		return false
	}
	return true
}
