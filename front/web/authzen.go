package web

import (
	"encoding/json"
	"errors"
	"net/http"
	"strconv"
	"strings"

	"review-front/authzen"
	"review-front/places"
	"review-front/profile"
)

const (
	// authzenPrefix begins the paths at which AuthZEN's requests are answered.
	authzenPrefix = "/access/v1/"
	// requestID is the field by which who asks there knows the answer again.
	requestID = "X-Request-ID"
)

// asAuthzen has a request to AuthZEN's paths be answered by its rules, whatever is wrong with it.
func (s *Server) asAuthzen(w *answered, r *http.Request) {
	if s.Authzen == nil || !strings.HasPrefix(r.URL.Path, authzenPrefix) {
		return
	}
	w.authzen = true
	if id := r.Header.Get(requestID); id != "" {
		w.Header().Set(requestID, id)
	}
}

// authzenRoutes are AuthZEN's paths, where a file says what its types are.
func (s *Server) authzenRoutes() []route {
	return []route{
		{http.MethodPost, "/access/v1/evaluation", s.evaluation},
		{http.MethodPost, "/access/v1/evaluations", s.evaluations},
		{http.MethodPost, "/access/v1/search/subject", s.search(authzen.Subject)},
		{http.MethodPost, "/access/v1/search/action", s.search(authzen.Action)},
		{http.MethodPost, "/access/v1/search/resource", s.search(authzen.Resource)},
		{http.MethodGet, "/.well-known/authzen-configuration", s.authzenConfiguration},
	}
}

// authzenConfiguration tells where AuthZEN's paths are.
func (s *Server) authzenConfiguration(w *answered, r *http.Request, _ map[string]string) {
	base := s.Authzen.Base
	if base == "" {
		base = "http://" + r.Host
		if r.TLS != nil {
			base = "https://" + r.Host
		}
	}
	sendAuthzen(w, map[string]string{
		"policy_decision_point":       base,
		"access_evaluation_endpoint":  base + "/access/v1/evaluation",
		"access_evaluations_endpoint": base + "/access/v1/evaluations",
		"search_subject_endpoint":     base + "/access/v1/search/subject",
		"search_action_endpoint":      base + "/access/v1/search/action",
		"search_resource_endpoint":    base + "/access/v1/search/resource",
	})
}

// authzenBody is the body of a request to AuthZEN's paths. Where there is none it answers why.
func (s *Server) authzenBody(w *answered, r *http.Request) (places.Node, []byte, bool) {
	if requestType(r.Header.Get("Content-Type")) != profileType {
		sendAuthzenError(w, http.StatusUnsupportedMediaType, "a request is application/json")
		return places.Node{}, nil, false
	}
	body, ok := s.taken(w, r)
	if !ok || !s.reach(w, r) {
		return places.Node{}, nil, false
	}
	root, err := places.Parse(body)
	if err == nil {
		if _, ok := root.Value.(map[string]any); !ok {
			err = root.Fault("the body isn't an object")
		}
	}
	if err != nil {
		sendAuthzenFault(w, err)
		return places.Node{}, nil, false
	}
	return root, body, true
}

// evaluation answers one evaluation.
func (s *Server) evaluation(w *answered, r *http.Request, _ map[string]string) {
	if root, _, ok := s.authzenBody(w, r); ok {
		s.evaluateOne(w, r, root)
	}
}

// evaluateOne answers the one evaluation that a body asks.
func (s *Server) evaluateOne(w *answered, r *http.Request, root places.Node) {
	question, err := s.Authzen.Evaluation(root)
	if err != nil {
		sendAuthzenFault(w, err)
		return
	}
	decisions, told := s.decide(w, r, []authzen.Question{question})
	if told != nil {
		sendAuthzenProblem(w, told)
		return
	}
	sendAuthzen(w, decisions[0])
}

// evaluations answers several evaluations, all of one state.
func (s *Server) evaluations(w *answered, r *http.Request, _ map[string]string) {
	root, _, ok := s.authzenBody(w, r)
	if !ok {
		return
	}
	asked, semantics, err := s.Authzen.Evaluations(root, mostTogether)
	if err != nil {
		sendAuthzenFault(w, err)
		return
	}
	if asked == nil {
		s.evaluateOne(w, r, root)
		return
	}
	var questions []authzen.Question
	for _, one := range asked {
		if one.Wrong == nil {
			questions = append(questions, one.Question)
		}
	}
	decisions, told := s.decide(w, r, questions)
	if told != nil {
		sendAuthzenProblem(w, told)
		return
	}
	all := []authzen.Decision{}
	for _, one := range asked {
		var next authzen.Decision
		if one.Wrong == nil {
			next, decisions = decisions[0], decisions[1:]
		} else {
			next.Context.Error = &authzen.Error{Status: http.StatusBadRequest, Message: one.Wrong.Error()}
		}
		all = append(all, next)
		if semantics.Ends(next.Decision) {
			break
		}
	}
	sendAuthzen(w, map[string]any{"evaluations": all})
}

// decide asks questions, all of one state, and gives the decisions.
func (s *Server) decide(w *answered, r *http.Request, questions []authzen.Question) ([]authzen.Decision, *problem) {
	requests, err := requestsOf(questions)
	if err != nil {
		return nil, misread(err)
	}
	all, told := s.askRequests(r.Context(), requests)
	if told != nil {
		return nil, told
	}
	s.keepAll(r, all)
	var decisions []authzen.Decision
	for _, one := range all {
		reply := one.reply
		s.Meter.Decision(decisionOf(reply.Body))
		decision, err := authzen.DecisionOf(reply.Body)
		if err != nil {
			told := bad(err.Error())
			return nil, &told
		}
		decisions = append(decisions, decision)
		tellSerial(w, reply.Serial)
	}
	return decisions, nil
}

// requestsOf writes the requests that ask questions.
func requestsOf(questions []authzen.Question) ([][]byte, error) {
	var requests [][]byte
	length := 0
	for _, question := range questions {
		request, err := question.Request()
		if err != nil {
			return nil, err
		}
		if length += len(request); length > profile.MostBytes {
			return nil, &profile.Many{Most: mostTogether}
		}
		requests = append(requests, request)
	}
	return requests, nil
}

// sendAuthzen answers with JSON.
func sendAuthzen(w http.ResponseWriter, what any) {
	written, err := json.Marshal(what)
	if err != nil {
		sendAuthzenError(w, http.StatusInternalServerError, err.Error())
		return
	}
	sendJSON(w, written)
}

// sendAuthzenFault answers that a request can't be answered as it is: with the place.
func sendAuthzenFault(w http.ResponseWriter, err error) {
	status := http.StatusBadRequest
	var many *authzen.TooMany
	if errors.As(err, &many) {
		status = http.StatusUnprocessableEntity
	}
	sendAuthzenError(w, status, err.Error())
}

// sendAuthzenProblem answers with a problem as AuthZEN has errors.
func sendAuthzenProblem(w http.ResponseWriter, told *problem) {
	if told.after > 0 {
		w.Header().Set("Retry-After", strconv.Itoa(told.after))
	}
	message := told.Detail
	if message == "" {
		message = told.Title
	}
	if told.Place != "" {
		message = told.Place + ": " + message
	}
	sendAuthzenError(w, told.Status, message)
}

// sendAuthzenError answers with an error, whose body is one text.
func sendAuthzenError(w http.ResponseWriter, status int, message string) {
	w.Header().Set("Content-Type", "application/json")
	w.WriteHeader(status)
	// Who has gone isn't told.
	_, _ = w.Write([]byte(quoted(message) + "\n"))
}
