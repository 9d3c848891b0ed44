package web

import (
	"crypto/rand"
	"encoding/json"
	"errors"
	"fmt"
	"net/http"
	"time"

	"review-front/scim"
)

// scimTries is how often a change is made anew where another one came between.
const scimTries = 10

// scimBody is the body of a request, an object.
func (s *Server) scimBody(w *answered, r *http.Request) (map[string]any, bool) {
	body, ok := s.taken(w, r)
	if !ok {
		return nil, false
	}
	read, err := scim.ReadBody(body)
	if err != nil {
		problemFor(err).send(w)
		return nil, false
	}
	return read, true
}

// scimCreate makes a resource.
func (s *Server) scimCreate(kind *scim.Kind) func(*answered, *http.Request, map[string]string) {
	return func(w *answered, r *http.Request, _ map[string]string) {
		body, ok := s.scimBody(w, r)
		if !ok {
			return
		}
		draft := s.Keeper.Scim.Draft(kind, nil)
		err := draft.Whole(body)
		if !s.mayScim(w, r, "scim.write", kind.Name, draft.Key()) {
			return
		}
		var record *scim.Record
		if err == nil {
			record, err = draft.Record(newResourceID(), nil)
		}
		if err != nil {
			problemFor(err).send(w)
			return
		}
		if s.record(w, r, record) {
			s.tellScimNow(w, r, kind, record.ID, http.StatusCreated)
		}
	}
}

// newResourceID is an id that no other resource has, as a UUID.
func newResourceID() string {
	var word [16]byte
	if _, err := rand.Read(word[:]); err != nil {
		panic(err) // as of Go's library, it doesn't fail where the front runs
	}
	word[6], word[8] = word[6]&0x0f|0x40, word[8]&0x3f|0x80
	return fmt.Sprintf("%x-%x-%x-%x-%x", word[:4], word[4:6], word[6:8], word[8:10], word[10:])
}

// tellScimNow answers with a resource as it is now.
func (s *Server) tellScimNow(w *answered, r *http.Request, kind *scim.Kind, id string, status int) {
	one := s.Keeper.Scim.Find(kind.Name, id)
	if !s.scimKept(w, r) {
		return
	}
	if one == nil {
		problemFor(scim.Missing(kind.Name, id)).send(w)
		return
	}
	s.tellScim(w, r, kind, one, status)
}

// scimWrite replaces a resource, or changes it by operations.
func (s *Server) scimWrite(kind *scim.Kind, patch bool) func(*answered, *http.Request, map[string]string) {
	return func(w *answered, r *http.Request, keys map[string]string) {
		body, ok := s.scimBody(w, r)
		if !ok || !s.mayScim(w, r, "scim.write", kind.Name, keys["id"]) {
			return
		}
		changed := s.changing(w, r, kind, keys["id"], func(from *scim.Resource) (*scim.Record, error) {
			draft := s.Keeper.Scim.Draft(kind, from)
			var err error
			if patch {
				err = draft.Patch(body)
			} else {
				err = draft.Whole(body)
			}
			if err != nil {
				return nil, err
			}
			return draft.Record(from.ID, from)
		})
		if !changed {
			return
		}
		if patch && kind.Name == "Group" && r.URL.RawQuery == "" {
			w.WriteHeader(http.StatusNoContent) // its members may be many
			return
		}
		s.tellScimNow(w, r, kind, keys["id"], http.StatusOK)
	}
}

// scimDelete takes a resource away.
func (s *Server) scimDelete(kind *scim.Kind) func(*answered, *http.Request, map[string]string) {
	return func(w *answered, r *http.Request, keys map[string]string) {
		if !s.mayScim(w, r, "scim.write", kind.Name, keys["id"]) {
			return
		}
		changed := s.changing(w, r, kind, keys["id"], func(from *scim.Resource) (*scim.Record, error) {
			return &scim.Record{Do: scim.Delete, Kind: kind.Name, ID: from.ID, Of: from.Serial, Key: from.Key}, nil
		})
		if changed {
			w.WriteHeader(http.StatusNoContent)
		}
	}
}

// changing has a record made of a resource as it is, and again where another one came between. It is false where it
// answered itself.
func (s *Server) changing(w *answered, r *http.Request, kind *scim.Kind, id string,
	make func(from *scim.Resource) (*scim.Record, error),
) bool {
	for try := 1; ; try++ {
		from := s.Keeper.Scim.Find(kind.Name, id)
		if from == nil {
			if s.scimKept(w, r) {
				problemFor(scim.Missing(kind.Name, id)).send(w)
			}
			return false
		}
		if names := r.Header.Get("If-Match"); names != "" && !hasVersion(names, from) {
			if s.scimKept(w, r) {
				problemFor(&scim.Error{Status: http.StatusPreconditionFailed,
					Detail: "the resource has the version " + from.Version()}).send(w)
			}
			return false
		}
		record, err := make(from)
		if err != nil {
			problemFor(err).send(w)
			return false
		}
		if record == nil {
			return s.scimKept(w, r)
		}
		again, done := s.tryRecord(w, r, record, try < scimTries)
		if !again {
			return done
		}
	}
}

// record has a record made, and answers itself where it isn't.
func (s *Server) record(w *answered, r *http.Request, record *scim.Record) bool {
	_, done := s.tryRecord(w, r, record, false)
	return done
}

// tryRecord has a record made, and the table have what users have behind it. `again` says that it is to be made anew,
// since another one came between, where that may be.
func (s *Server) tryRecord(w *answered, r *http.Request, record *scim.Record, may bool) (again, done bool) {
	by, nobody := s.who(r)
	if nobody != nil {
		nobody.send(w)
		return false, false
	}
	serial, err := s.Keeper.Record(r.Context(), record, by)
	var refused *scim.Error
	if may && errors.As(err, &refused) && refused.Moved {
		return true, false
	}
	if err != nil {
		problemFor(err).send(w)
		return false, false
	}
	s.Keeper.Provisioned(r.Context(), serial)
	return false, true
}

// holding tells whether provisioning is held, and what of it the table hasn't.
func (s *Server) holding(w *answered, r *http.Request, _ map[string]string) {
	if !s.mayScim(w, r, "scim.hold", "", "") || !s.scimKept(w, r) {
		return
	}
	behind, count := s.Keeper.Behind()
	tellJSON(w, struct {
		scim.Holding
		Behind any `json:"behind"`
		Count  int `json:"behind_count"`
	}{s.Keeper.Scim.Holding(time.Now(), s.Keeper.AtMost.Within), behind, count})
}

// hold holds provisioning.
func (s *Server) hold(w *answered, r *http.Request, _ map[string]string) {
	body, ok := s.taken(w, r)
	if !ok || !s.mayScim(w, r, "scim.hold", "", "") {
		return
	}
	var said struct {
		Why string `json:"why"`
	}
	if err := json.Unmarshal(body, &said); err != nil || said.Why == "" {
		bad(`the body says "why" provisioning is held`).send(w)
		return
	}
	if s.record(w, r, &scim.Record{Do: scim.Hold, Why: said.Why}) {
		s.holding(w, r, nil)
	}
}

// letOn lets provisioning on.
func (s *Server) letOn(w *answered, r *http.Request, _ map[string]string) {
	if s.mayScim(w, r, "scim.let", "", "") && s.record(w, r, &scim.Record{Do: scim.LetOn}) {
		w.WriteHeader(http.StatusNoContent)
	}
}
