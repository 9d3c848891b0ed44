package web

import (
	"net/http"
	"sort"

	"review-front/access"
)

// whoami tells who asks: the name by which it is written down what he does, his roles, and the commands that he has.
// Where everybody may everything nobody has roles.
func (s *Server) whoami(w *answered, r *http.Request, _ map[string]string) {
	name, nobody := s.who(r)
	if nobody != nil {
		nobody.send(w)
		return
	}
	told := struct {
		Called   string   `json:"called,omitempty"` // the attribute that has what people are called
		Commands []string `json:"commands"`
		Name     string   `json:"name"`
		Person   string   `json:"person,omitempty"`
		Roles    []string `json:"roles"`
	}{Called: s.Called, Commands: access.Commands(), Name: name, Roles: []string{}}
	if v := visitIn(r.Context()); v != nil && v.last() != nil {
		who := v.last()
		told.Commands, told.Roles = []string{}, who.Roles()
		for _, command := range access.Commands() {
			if who.May(command) {
				told.Commands = append(told.Commands, command)
			}
		}
		if name == who.Name {
			told.Person = who.Person
		}
	}
	sort.Strings(told.Roles)
	w.Header().Set("Cache-Control", "no-store")
	tellJSON(w, told)
}
