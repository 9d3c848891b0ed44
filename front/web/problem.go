package web

import (
	"encoding/json"
	"errors"
	"fmt"
	"net/http"
	"strconv"

	"review-front/keeper"
	"review-front/keys"
	"review-front/line"
	"review-front/sessions"
)

// problem is an answer that something is wrong, as problem+json has it.
type problem struct {
	Title   string `json:"title"`
	Status  int    `json:"status"`
	Detail  string `json:"detail,omitempty"`
	Refused int    `json:"refused,omitempty"` // the number of the program's refusal
	Sub     int    `json:"sub,omitempty"`     // its sub-code
	Place   string `json:"place,omitempty"`   // where a request is wrong: a JSON pointer, or of XML the path of an element
	// Changed is what isn't as it was seen, of an act of a campaign.
	Changed any `json:"changed,omitempty"`
	after   int // after how many seconds it may be tried again
	// scimType is the word of SCIM's for it, at SCIM's paths.
	scimType string
}

const (
	problemType = "application/problem+json"
	// freedAfter is after how many seconds a session may be free where all were taken.
	freedAfter = 5
)

// refusal is what a number of the program means to a client.
type refusal struct {
	status   int
	title    string
	sentence string
}

// refusals has the program's refusals by their numbers.
var refusals = map[int]refusal{
	1:  {http.StatusRequestEntityTooLarge, "the line is too long", "a line has at most 1,048,576 bytes"},
	2:  {http.StatusBadRequest, "not JSON", "the body isn't one JSON value in UTF-8, or it nests deeper than 127"},
	3:  {http.StatusBadRequest, "the shape of the line", "a key is foreign or missing, or what stands at it is of the wrong kind"},
	4:  {http.StatusNotFound, "no such command", "this version of the program doesn't have the command"},
	5:  {http.StatusBadRequest, "no such session", "sessions are numbered from 0 to 15"},
	6:  {http.StatusUnprocessableEntity, "the document or the reference", "the sub-code says which fault it has"},
	7:  {http.StatusNotFound, "not there", "the name isn't listed, or the module doesn't hold the document"},
	8:  {http.StatusConflict, "already there", "the name is listed, or the module holds such a document"},
	9:  {http.StatusConflict, "a limit", "a list, a row or the table would pass its limit"},
	10: {http.StatusBadRequest, "the id of the category", "the names themselves are not set as attributes"},
	11: {http.StatusBadRequest, "a bad value", "a name, an id, a type, a value, a version, a day or a moment isn't one"},
	12: {http.StatusConflict, "no mark", "the session hasn't marked the table yet"},
	13: {http.StatusNotFound, "no such module", "modules are numbered from 0, as many as the program was started with"},
	14: {http.StatusBadRequest, "the request", "it isn't one of the profile: a key is foreign or missing, or a value isn't of its type"},
	15: {http.StatusInsufficientStorage, "memory", "there isn't enough memory; nothing has changed"},
}

// problemOf is what a reply of the program says, if it is a refusal.
func problemOf(reply []byte) (problem, bool) {
	number, sub, ok := line.ReadRefusal(reply)
	if !ok {
		return problem{}, false
	}
	known, ok := refusals[number]
	if !ok {
		known = refusal{http.StatusBadRequest, "refused", "the program refuses it"}
	}
	return problem{Title: known.title, Status: known.status, Detail: known.sentence, Refused: number, Sub: sub}, true
}

// forbids says why who asks may not send a line.
type forbids struct{ problem problem }

func (f *forbids) Error() string { return f.problem.Title }

// problemFor is what stands in the place of a reply that there is none of.
func problemFor(err error) problem {
	if told, is := problemOfPast(err); is {
		return told
	}
	if told, is := problemOfCampaign(err); is {
		return told
	}
	if told, is := problemOfScim(err); is {
		return told
	}
	after := 1
	var why *keeper.Unavailable
	var tried *keeper.Tried
	var otherwise *keeper.Otherwise
	var part *keeper.Part
	var nobody notKnown
	var no *forbids
	switch {
	case errors.As(err, &no):
		return no.problem
	case errors.As(err, &nobody):
		return problem{Title: "not known", Status: http.StatusUnauthorized, Detail: err.Error()}
	case errors.As(err, &tried):
		return problem{Title: "it takes too long", Status: http.StatusUnprocessableEntity, Detail: err.Error()}
	case errors.As(err, &otherwise):
		return problem{Title: "edited in between", Status: http.StatusPreconditionFailed, Detail: err.Error()}
	case errors.As(err, &part):
		told, _ := problemOf(part.Reply)
		told.Detail = fmt.Sprintf("edit %d of the body: %s; none is made", part.Number, told.Detail)
		return told
	case errors.Is(err, keeper.ErrAppended):
		return problem{Title: "no reply yet", Status: http.StatusGatewayTimeout, Detail: err.Error()}
	case errors.Is(err, keeper.ErrForgotten):
		return problem{Title: "answered before", Status: http.StatusConflict, Detail: err.Error()}
	case errors.Is(err, keeper.ErrRefused):
		return problem{Title: "refused before", Status: http.StatusConflict, Detail: err.Error()}
	case errors.Is(err, sessions.ErrGone):
		return noSession()
	case errors.Is(err, keys.ErrOther):
		return problem{Title: "another body", Status: http.StatusUnprocessableEntity, Detail: err.Error()}
	case errors.Is(err, sessions.ErrTaken):
		after = freedAfter
	case errors.As(err, &why):
		after = int(why.After.Seconds())
	}
	return problem{Title: "not available", Status: http.StatusServiceUnavailable, Detail: err.Error(), after: after}
}

// line is the problem as one line, without its newline.
func (p problem) line() []byte {
	written, err := json.Marshal(p)
	if err != nil {
		return []byte(`{"title":"not available","status":500}`)
	}
	return written
}

// head puts the problem's status and what belongs to it into the head of an answer.
func (p problem) head(w http.ResponseWriter, kind string) {
	if p.after > 0 {
		w.Header().Set("Retry-After", strconv.Itoa(p.after))
	}
	w.Header().Set("Content-Type", kind)
	w.WriteHeader(p.Status)
}

// send answers with the problem, at paths of AuthZEN and of SCIM as these have it.
func (p problem) send(w http.ResponseWriter) {
	if a, ok := w.(*answered); ok && a.authzen {
		sendAuthzenProblem(w, &p)
		return
	}
	if a, ok := w.(*answered); ok && a.scim {
		p.sendScim(w)
		return
	}
	if a, ok := w.(*answered); ok && a.check {
		p = p.reasoned(w)
	}
	p.head(w, problemType)
	// Who has gone isn't told.
	_, _ = w.Write(append(p.line(), '\n'))
}

func bad(detail string) problem {
	return problem{Title: "the request can't be read", Status: http.StatusBadRequest, Detail: detail}
}

func unknown() problem {
	return problem{Title: "no such path", Status: http.StatusNotFound, Detail: "GET / lists the paths"}
}

func misdirected() problem {
	return problem{
		Title: "another host", Status: http.StatusMisdirectedRequest, Detail: "the front isn't asked as this host: --host names it",
	}
}
