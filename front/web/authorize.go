package web

import (
	"bytes"
	"net/http"

	"review-front/measure"
	"review-front/profile"
)

var (
	responseTypes = map[string][]string{profileType: {profileType}, xmlType: {xmlType}}
	decisionKey   = []byte(`"Decision":"`)
)

// authorize answers a request as the REST Profile has it: the request in, its response out, each in JSON or XML.
func (s *Server) authorize(w *answered, r *http.Request) {
	if r.Method != http.MethodPost {
		w.Header().Set("Allow", http.MethodPost)
		problem{Title: "no such method", Status: http.StatusMethodNotAllowed, Detail: "a request comes by POST"}.send(w)
		return
	}
	given, wanted, wrong := s.fit(r)
	if wrong != nil {
		wrong.send(w)
		return
	}
	body, ok := s.taken(w, r)
	if !ok || !s.reach(w, r) {
		return
	}
	ctx, ok := s.asOf(w, r)
	if !ok {
		return
	}
	all, told := s.responsesTo(ctx, given, body)
	if told != nil {
		told.send(w)
		return
	}
	response := joined(all)
	if wanted == xmlType {
		var err error
		if response, err = profile.ResponseXML(response); err != nil {
			problem{Title: "no XML", Status: http.StatusNotAcceptable, Detail: err.Error()}.send(w)
			return
		}
	}
	for _, one := range all {
		s.Meter.Decision(decisionOf(one.reply.Body))
	}
	s.keepAll(r, all)
	tellSerial(w, all[0].reply.Serial)
	w.Header()["Content-Type"] = responseTypes[wanted]
	// Who has gone isn't told.
	_, _ = w.Write(append(response, '\n'))
}

// The beginning and the end of a response, between which its results stand.
var (
	responseBegins = []byte(`{"Response":[`)
	responseEnds   = []byte(`]}`)
)

// joined is one response with the results of all.
func joined(all []asked) []byte {
	if len(all) == 1 {
		return all[0].reply.Body
	}
	var results [][]byte
	for _, one := range all {
		results = append(results, bytes.TrimSuffix(bytes.TrimPrefix(one.reply.Body, responseBegins), responseEnds))
	}
	return append(append(append([]byte(nil), responseBegins...), bytes.Join(results, []byte(","))...), responseEnds...)
}

// fit is of which types a request and its response are, or why it can't be answered whatever its body is.
func (s *Server) fit(r *http.Request) (given, wanted string, wrong *problem) {
	if s.Hosts.elsewhere(r) {
		return "", "", &problem{
			Title: "from another site", Status: http.StatusForbidden, Detail: "a page of another site asks",
		}
	}
	if given = requestType(r.Header.Get("Content-Type")); given == "" {
		return "", "", &problem{
			Title: "another type", Status: http.StatusUnsupportedMediaType,
			Detail: "a request is " + profileType + " or " + xmlType,
		}
	}
	if wanted = responseType(r.Header["Accept"], given); wanted == "" {
		return "", "", &problem{
			Title: "another type", Status: http.StatusNotAcceptable,
			Detail: "a response is " + profileType + " or " + xmlType,
		}
	}
	return given, wanted, nil
}

// decisionOf is the decision of a response. In a text of it quotes would be escaped, so that what is found is the
// key.
func decisionOf(response []byte) string {
	at := bytes.Index(response, decisionKey)
	if at < 0 {
		return measure.Unknown
	}
	rest := response[at+len(decisionKey):]
	for _, known := range measure.Decisions {
		if bytes.HasPrefix(rest, []byte(known)) {
			return known
		}
	}
	return measure.Unknown
}
