package web

import (
	"context"
	"fmt"
	"net/http"
	"net/url"
	"strconv"
	"strings"
	"time"

	"review-front/keeper"
	"review-front/line"
)

// atKey is the key of a query that says of when a question is: a serial, a day or a moment.
const atKey = "at"

// withoutAt is a query without that key.
func withoutAt(raw string) string {
	if !strings.Contains(raw, atKey+"=") {
		return raw
	}
	given, err := url.ParseQuery(strings.ReplaceAll(raw, ";", "%3B"))
	if err != nil {
		return raw
	}
	given.Del(atKey)
	return given.Encode()
}

// past answers a question of what was so at a serial, a day or a moment.
func (s *Server) past(w *answered, r *http.Request, q question, l []byte) {
	if !s.mayAll(w, r, l, []byte(`{"do":"changes","since":0}`)) {
		return
	}
	if q.do == "changes" {
		bad("changes have until in place of at").send(w)
		return
	}
	if len(l) > line.Limit {
		refuse(w, []byte(line.TooLong))
		return
	}
	if !s.stands(w, r) {
		return
	}
	serial, told := s.then(r.Context(), r.URL.Query()[atKey])
	if told != nil {
		told.send(w)
		return
	}
	replies, err := s.Keeper.At(r.Context(), serial, l)
	if err != nil {
		problemFor(err).send(w)
		return
	}
	if s.namesModules(q.do) {
		replies[0] = s.withModules(r, q.do, replies[0], func(l []byte) keeper.Reply {
			told, err := s.Keeper.At(r.Context(), serial, l)
			if err != nil {
				return keeper.Reply{Err: err}
			}
			return told[0]
		})
	}
	sendReply(w, replies[0])
}

// then is the serial of the state at a serial, a day or a moment: that behind the last edit which was made by then.
func (s *Server) then(ctx context.Context, given []string) (uint64, *problem) {
	wrong := func(what string) (uint64, *problem) {
		told := bad(what)
		return 0, &told
	}
	if len(given) != 1 {
		return wrong("at stands more than once")
	}
	now := s.Keeper.Serial()
	if serial, err := strconv.ParseUint(given[0], 10, 63); err == nil {
		if serial > now {
			return wrong(fmt.Sprintf("at is behind the last edit, which has serial %d", now))
		}
		return serial, nil
	}
	at, err := timeOf(given[0])
	if err != nil {
		return wrong("at is a serial, a day as 2026-03-31, or a moment as 2026-03-31T09:00:00Z")
	}
	if s.Keeper.History() == nil {
		return wrong("at is a serial: the front keeps nothing by which it finds a time")
	}
	s.Keeper.Learned(ctx, now)
	serial, known := s.Keeper.History().Before(at.Add(time.Nanosecond))
	if !known {
		return 0, &problem{
			Title: "not known any more", Status: http.StatusGone, Detail: "the edits of that time aren't known any more",
		}
	}
	return serial, nil
}

// thenKey is the key of the serial of whose state somebody asks in the context of a request.
type thenKey struct{}

// asOf is the context of a request with the serial of whose state it asks, if it says one. It answers itself where that
// can't be asked.
func (s *Server) asOf(w *answered, r *http.Request) (context.Context, bool) {
	given, then := r.URL.Query()[atKey]
	if !then {
		return r.Context(), true
	}
	if !s.mayAll(w, r, []byte(`{"do":"changes","since":0}`)) || !s.stands(w, r) {
		return nil, false
	}
	serial, told := s.then(r.Context(), given)
	if told != nil {
		told.send(w)
		return nil, false
	}
	return context.WithValue(r.Context(), thenKey{}, serial), true
}

// decideAll asks requests, of now or of the state of which it is asked.
func (s *Server) decideAll(ctx context.Context, lines [][]byte) []keeper.Reply {
	serial, then := ctx.Value(thenKey{}).(uint64)
	if !then {
		return s.Keeper.DecideAll(ctx, lines)
	}
	replies, err := s.Keeper.At(ctx, serial, lines...)
	if err != nil {
		return []keeper.Reply{{Err: err, Serial: serial}}
	}
	return replies
}
