package web

import (
	"context"
	"encoding/json"
	"errors"
	"io"
	"net/http"
	"time"

	"review-front/keeper"
	"review-front/line"
	"review-front/places"
	"review-front/profile"
)

// mostTogether is how many questions are asked together at most: those that one request holds.
const mostTogether = 1000

// noRequest is the number of the refusal of what is no request.
const noRequest = 14

// errBetween says that several questions weren't answered of one state.
var errBetween = &keeper.Unavailable{Why: "edits came between the questions", After: time.Second}

// responsesTo asks what a request of a type asks, and gives the responses of the program. JSON that the program takes
// goes to it as it came. Only what it refuses is read here: it may hold several requests, or values that the program
// knows in another form, or else it is told where it is wrong.
func (s *Server) responsesTo(ctx context.Context, given string, body []byte) ([]asked, *problem) {
	if given == xmlType {
		requests, err := profile.ReadXML(body, mostTogether)
		if err != nil {
			return nil, misread(err)
		}
		return s.askRequests(ctx, requests)
	}
	all, told := s.askRequests(ctx, [][]byte{body})
	if told == nil || told.Refused != noRequest {
		return all, told
	}
	requests, err := profile.Read(body, mostTogether)
	if err != nil {
		return nil, misread(err)
	}
	return s.askRequests(ctx, requests)
}

// askRequests asks requests, all of one state, and gives the responses.
func (s *Server) askRequests(ctx context.Context, requests [][]byte) ([]asked, *problem) {
	var lines [][]byte
	for _, request := range requests {
		l, ok := line.Asking(request)
		if !ok {
			told := bad("the body isn't one JSON object")
			return nil, &told
		}
		lines = append(lines, l)
	}
	replies, told := s.askAll(ctx, lines)
	if told != nil {
		return nil, told
	}
	var all []asked
	for i, reply := range replies {
		all = append(all, asked{requests[i], reply})
	}
	return all, nil
}

// askAll asks lines with requests, all of one state. Where one is refused, that is told, and no reply is given.
func (s *Server) askAll(ctx context.Context, lines [][]byte) ([]keeper.Reply, *problem) {
	for _, l := range lines {
		if len(l) > line.Limit {
			told, _ := problemOf([]byte(line.TooLong))
			return nil, &told
		}
		if told, wrong := s.judge(visitIn(ctx), l); wrong {
			return nil, &told
		}
	}
	replies := s.decideAll(ctx, lines)
	for _, reply := range replies {
		err := reply.Err
		if err == nil && reply.Serial != replies[0].Serial {
			err = errBetween
		}
		if err != nil {
			told := problemFor(err)
			return nil, &told
		}
	}
	for _, reply := range replies {
		if told, refused := problemOf(reply.Body); refused {
			return nil, &told
		}
	}
	return replies, nil
}

// misread is the problem of a request that can't be asked.
func misread(err error) *problem {
	var fault *places.Fault
	var many *profile.Many
	told, _ := problemOf([]byte(`{"refused":14}`))
	switch {
	case errors.As(err, &fault):
		told.Detail, told.Place = fault.What, fault.Place
	case errors.As(err, &many):
		told = problem{Title: "too many questions", Status: http.StatusUnprocessableEntity, Detail: err.Error()}
	}
	return &told
}

// reported asks the table's program a question whose reply may be long, and reads that. It gives the state of which the
// reply is.
func (s *Server) reported(ctx context.Context, l []byte, into any) (uint64, *problem) {
	err := s.Keeper.Await(ctx)
	var reply keeper.Reply
	if err == nil {
		reply = s.Keeper.Report(ctx, l)
		err = reply.Err
	}
	if err != nil {
		told := problemFor(err)
		return 0, &told
	}
	if told, refused := problemOf(reply.Body); refused {
		return 0, &told
	}
	out, in := io.Pipe()
	go func() {
		_, err := reply.WriteTo(in)
		_ = in.CloseWithError(err)
	}()
	if err := json.NewDecoder(out).Decode(into); err != nil {
		_ = out.CloseWithError(err)
		told := problemFor(err)
		return 0, &told
	}
	_ = out.Close()
	return reply.Serial, nil
}
