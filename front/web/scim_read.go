package web

import (
	"bytes"
	"encoding/json"
	"net/http"
	"strconv"
	"strings"

	"review-front/scim"
)

// scimRead tells of one resource.
func (s *Server) scimRead(kind *scim.Kind) func(*answered, *http.Request, map[string]string) {
	return func(w *answered, r *http.Request, keys map[string]string) {
		if !s.mayScim(w, r, "scim.read", kind.Name, keys["id"]) {
			return
		}
		one := s.Keeper.Scim.Find(kind.Name, keys["id"])
		if !s.scimKept(w, r) {
			return
		}
		if one == nil {
			problemFor(scim.Missing(kind.Name, keys["id"])).send(w)
			return
		}
		if names := r.Header.Get("If-None-Match"); names != "" && hasVersion(names, one) {
			w.Header().Set("ETag", one.Version())
			w.WriteHeader(http.StatusNotModified)
			return
		}
		s.tellScim(w, r, kind, one, http.StatusOK)
	}
}

// hasVersion says whether a list of versions has that of a resource, or all.
func hasVersion(names string, of *scim.Resource) bool {
	for _, name := range strings.Split(names, ",") {
		if strings.TrimSpace(name) == "*" {
			return true
		}
		if serial, ok := scim.ReadVersion(name); ok && serial == of.Serial {
			return true
		}
	}
	return false
}

// tellScim answers with a resource.
func (s *Server) tellScim(w *answered, r *http.Request, kind *scim.Kind, one *scim.Resource, status int) {
	query, err := scimQuery(r)
	var asked map[string]scim.Asked
	if err == nil {
		asked, err = scimAsked([]*scim.Kind{kind}, parted(query["attributes"]), parted(query["excludedAttributes"]))
	}
	if err != nil {
		problemFor(err).send(w)
		return
	}
	view := s.Keeper.Scim.View(s.Keeper.Provision.Kinds, one, scimBase(r))
	w.Header().Set("ETag", one.Version())
	w.Header().Set("Location", view.Location())
	tellSerial(w, s.Keeper.Serial())
	sendScim(w, status, view.Tell(asked[kind.Name]))
}

// scimList lists resources of a kind.
func (s *Server) scimList(kind *scim.Kind) func(*answered, *http.Request, map[string]string) {
	return func(w *answered, r *http.Request, _ map[string]string) {
		query, err := scimQuery(r)
		if err != nil {
			problemFor(err).send(w)
			return
		}
		asked := searched{
			Filter: query.Get("filter"), SortBy: query.Get("sortBy"), SortOrder: query.Get("sortOrder"),
			Attributes: parted(query["attributes"]), Excluded: parted(query["excludedAttributes"]),
		}
		for name, to := range map[string]**int{"startIndex": &asked.Start, "count": &asked.Count} {
			if written := query.Get(name); written != "" {
				number, err := strconv.Atoi(written)
				if err != nil {
					problemFor(&scim.Error{Status: http.StatusBadRequest, Type: scim.InvalidValue,
						Detail: name + " is a number"}).send(w)
					return
				}
				*to = &number
			}
		}
		s.tellList(w, r, []*scim.Kind{kind}, asked)
	}
}

// searched is what is asked of a list.
type searched struct {
	Schemas    []string `json:"schemas"`
	Filter     string   `json:"filter"`
	SortBy     string   `json:"sortBy"`
	SortOrder  string   `json:"sortOrder"`
	Start      *int     `json:"startIndex"`
	Count      *int     `json:"count"`
	Attributes []string `json:"attributes"`
	Excluded   []string `json:"excludedAttributes"`
}

// query is it as the table takes it: a page begins at 1, and has some resources.
func (a searched) query(kinds []*scim.Kind) (scim.Query, error) {
	q := scim.Query{Kinds: kinds, Filter: a.Filter, SortBy: a.SortBy, Start: 1, Count: scimPage}
	if a.Start != nil && *a.Start > 1 {
		q.Start = *a.Start
	}
	if a.Count != nil {
		q.Count = *a.Count
	}
	if q.Count < 0 {
		q.Count = 0
	}
	if q.Count > mostScimPage {
		q.Count = mostScimPage
	}
	switch strings.ToLower(a.SortOrder) {
	case "", "ascending":
	case "descending":
		q.Descending = true
	default:
		return q, &scim.Error{Status: http.StatusBadRequest, Type: scim.InvalidValue,
			Detail: "sortOrder is ascending or descending"}
	}
	return q, nil
}

// scimSearch lists what a body asks for.
func (s *Server) scimSearch(kinds []*scim.Kind) func(*answered, *http.Request, map[string]string) {
	return func(w *answered, r *http.Request, _ map[string]string) {
		body, ok := s.taken(w, r)
		if !ok {
			return
		}
		var asked searched
		if err := json.NewDecoder(bytes.NewReader(body)).Decode(&asked); err != nil {
			problemFor(&scim.Error{Status: http.StatusBadRequest, Type: scim.InvalidSyntax,
				Detail: "the body isn't a search: " + err.Error()}).send(w)
			return
		}
		s.tellList(w, r, kinds, asked)
	}
}

// tellList answers with a list.
func (s *Server) tellList(w *answered, r *http.Request, kinds []*scim.Kind, asked searched) {
	name := ""
	if len(kinds) == 1 {
		name = kinds[0].Name
	}
	if !s.mayScim(w, r, "scim.read", name, "") {
		return
	}
	q, err := asked.query(kinds)
	var which map[string]scim.Asked
	if err == nil {
		which, err = scimAsked(kinds, asked.Attributes, asked.Excluded)
	}
	var page *scim.Page
	if err == nil {
		page, err = s.Keeper.Scim.Ask(s.Keeper.Provision.Kinds, q, scimBase(r))
	}
	if err != nil {
		problemFor(err).send(w)
		return
	}
	if !s.scimKept(w, r) {
		return
	}
	resources := make([]any, 0, len(page.Views))
	for _, one := range page.Views {
		resources = append(resources, one.Tell(which[one.Kind]))
	}
	tellSerial(w, s.Keeper.Serial())
	sendScim(w, http.StatusOK, map[string]any{
		"schemas": []string{scim.ListMessage}, "totalResults": page.Total, "startIndex": page.Start,
		"itemsPerPage": len(resources), "Resources": resources,
	})
}
