package web

import (
	"bytes"
	"context"
	"errors"
	"fmt"
	"net/http"
	"regexp"
	"strconv"
	"time"

	"review-front/keeper"
)

// refusedLine is what a comparison tells of a line that is refused.
var refusedLine = regexp.MustCompile(`(?m)^[^\n]*:(\d+): replied (\{[^\n]*\})$`)

// dry tells what lines would change, and makes none of them.
func (s *Server) dry(w *answered, r *http.Request) {
	body, ok := s.taken(w, r)
	if !ok || !s.mayAll(w, r, bytes.Split(bytes.TrimSuffix(body, []byte("\n")), []byte("\n"))...) ||
		!s.may(w, r, "table") || !s.reach(w, r) {
		return
	}
	ctx, cancel := context.WithTimeout(r.Context(), s.DryTime)
	defer cancel()
	if !s.alone(ctx, w) {
		return
	}
	defer func() { <-s.drying }()
	told, serial, err := s.Keeper.Compare(ctx, body)
	if errors.Is(ctx.Err(), context.DeadlineExceeded) {
		late := fmt.Sprintf("it takes longer than %v to tell", s.DryTime)
		problem{Title: "it takes too long", Status: http.StatusUnprocessableEntity, Detail: late}.send(w)
		return
	}
	var room *keeper.Room
	if errors.As(err, &room) {
		problem{Title: "it takes too much memory", Status: http.StatusUnprocessableEntity, Detail: err.Error()}.send(w)
		return
	}
	if errors.Is(err, keeper.ErrModules) {
		problem{Title: "other modules", Status: http.StatusNotImplemented, Detail: err.Error()}.send(w)
		return
	}
	if err != nil {
		problemFor(err).send(w)
		return
	}
	tellSerial(w, serial)
	if wrong, ok := refusedIn(told); ok {
		wrong.send(w)
		return
	}
	sendJSON(w, bytes.TrimSuffix(told, []byte("\n")))
}

// alone waits until nothing else is compared, and answers itself where that takes long.
func (s *Server) alone(ctx context.Context, w http.ResponseWriter) bool {
	timer := time.NewTimer(s.Keeper.Patience)
	defer timer.Stop()
	select {
	case s.drying <- struct{}{}:
		return true
	case <-timer.C:
	case <-ctx.Done():
	}
	problemFor(keeper.ErrBusy).send(w)
	return false
}

// refusedIn is the first line that a comparison tells to be refused, if one is.
func refusedIn(told []byte) (problem, bool) {
	found := refusedLine.FindSubmatch(told)
	if found == nil {
		return problem{}, false
	}
	wrong, ok := problemOf(found[2])
	if !ok {
		wrong = problemFor(errors.New("the comparison can't be read"))
	}
	number, _ := strconv.Atoi(string(found[1]))
	wrong.Detail = fmt.Sprintf("line %d: %s", number, wrong.Detail)
	return wrong, true
}
