package web

import (
	"encoding/json"
	"errors"
	"net/http"

	"review-front/kubernetes"
	"review-front/places"
)

// kubernetesPath is where API servers of Kubernetes ask.
const kubernetesPath = "/k8s/authorize"

// kubernetes answers a SubjectAccessReview. Of what is asked and can't be decided it says so; an answer that isn't 200
// tells an API server that it was asked wrongly, or has to ask again.
func (s *Server) kubernetes(w *answered, r *http.Request, _ map[string]string) {
	if requestType(r.Header.Get("Content-Type")) != profileType {
		problem{
			Title: "another type", Status: http.StatusUnsupportedMediaType, Detail: "a review is application/json",
		}.send(w)
		return
	}
	body, ok := s.taken(w, r)
	if !ok || !s.reach(w, r) {
		return
	}
	answer, told := s.reviewed(w, r, body)
	if told != nil {
		told.send(w)
		return
	}
	written, err := json.Marshal(answer)
	if err != nil {
		problemFor(err).send(w)
		return
	}
	sendJSON(w, written)
}

// reviewed is the answer to a review.
func (s *Server) reviewed(w *answered, r *http.Request, body []byte) (kubernetes.Answer, *problem) {
	var none kubernetes.Answer
	root, err := places.Parse(body)
	var request []byte
	if err == nil {
		request, err = kubernetes.Request(root)
	}
	var unclear *kubernetes.Unclear
	if errors.As(err, &unclear) {
		return kubernetes.NoOpinion(err.Error()), nil
	}
	if err != nil {
		told := misread(err)
		told.Refused = 0
		return none, told
	}
	all, told := s.askRequests(r.Context(), [][]byte{request})
	if told != nil && told.Refused == noRequest {
		return kubernetes.NoOpinion("what is asked is longer, or has more members, than a request may"), nil
	}
	if told != nil {
		return none, told
	}
	s.keepAll(r, all)
	reply := all[0].reply
	s.Meter.Decision(decisionOf(reply.Body))
	answer, err := kubernetes.AnswerOf(reply.Body)
	if err != nil {
		told := problemFor(err)
		return none, &told
	}
	tellSerial(w, reply.Serial)
	return answer, nil
}
