package web

import (
	"context"
	"errors"
	"fmt"
	"math"
	"net/http"
	"net/url"
	"strconv"
	"strings"
	"time"
	"unicode/utf8"

	"review-front/changed"
)

// span is which edits somebody asks of: those behind a serial, up to another one.
type span struct {
	since, until uint64
	from, count  int
}

// query is the query of a path that the front answers by itself.
type query url.Values

// queryOf reads a query whose keys have to be among some.
func queryOf(raw string, known ...key) (query, error) {
	given, err := url.ParseQuery(strings.ReplaceAll(raw, ";", "%3B"))
	if err != nil {
		return nil, errors.New("the query can't be read")
	}
	for name, values := range given {
		is := false
		for _, one := range known {
			is = is || one.name == name
		}
		if !is {
			return nil, fmt.Errorf("the query has the key %q, which isn't known here", name)
		}
		for _, value := range values {
			if !utf8.ValidString(value) {
				return nil, fmt.Errorf("what stands at %s isn't UTF-8", name)
			}
		}
	}
	return query(given), nil
}

// one is what stands at a key once, or nothing.
func (q query) one(key string) (string, error) {
	if len(q[key]) > 1 {
		return "", fmt.Errorf("%s stands more than once", key)
	}
	return url.Values(q).Get(key), nil
}

// whole is the whole number at a key, up to a greatest one, or else another one.
func (q query) whole(key string, otherwise, most int) (int, error) {
	written, err := q.one(key)
	if err != nil || written == "" {
		return otherwise, err
	}
	number, err := strconv.ParseUint(written, 10, 63)
	if err != nil || number > uint64(most) {
		return 0, fmt.Errorf("%s is no whole number up to %d", key, most)
	}
	return int(number), nil
}

// timeOf reads a day or a moment.
func timeOf(written string) (time.Time, error) {
	if day, err := time.Parse("2006-01-02", written); err == nil {
		return day, nil
	}
	return time.Parse(time.RFC3339, written)
}

// serialAt is the serial that stands at a key, or the last one before a day or a moment: the edits behind it are those
// of then and later.
func (s *Server) serialAt(ctx context.Context, q query, key string, otherwise uint64) (uint64, error) {
	written, err := q.one(key)
	if err != nil || written == "" {
		return otherwise, err
	}
	if serial, err := strconv.ParseUint(written, 10, 63); err == nil {
		return serial, nil
	}
	at, err := timeOf(written)
	if err != nil {
		return 0, fmt.Errorf("%s is a serial, a day as 2026-03-31, or a moment as 2026-03-31T09:00:00Z", key)
	}
	s.Keeper.Learned(ctx, s.Keeper.Serial())
	serial, known := s.Keeper.History().Before(at)
	if !known {
		return 0, nil // what there is of it is told as not known
	}
	return serial, nil
}

// spanOf reads of which edits, and of what it tells which part, is asked. It answers itself where that can't be told.
func (s *Server) spanOf(w *answered, r *http.Request, q query, most int) (span, bool) {
	if !s.stands(w, r) {
		return span{}, false
	}
	if s.Keeper.History() == nil {
		problem{
			Title: "not kept", Status: http.StatusNotImplemented, Detail: "the front keeps nothing of what edits changed",
		}.send(w)
		return span{}, false
	}
	var asked span
	now := s.Keeper.Serial()
	var err error
	if asked.since, err = s.serialAt(r.Context(), q, "since", 0); err == nil {
		asked.until, err = s.serialAt(r.Context(), q, "until", now)
	}
	if err == nil {
		asked.from, err = q.whole("from", 0, math.MaxInt32)
	}
	if err == nil {
		asked.count, err = q.whole("count", most/10, most)
	}
	if err == nil && asked.since > now {
		err = fmt.Errorf("since is behind the last edit, which has serial %d", now)
	}
	if err != nil {
		bad(err.Error()).send(w)
		return span{}, false
	}
	if asked.until > now {
		asked.until = now
	}
	if asked.until < asked.since {
		asked.until = asked.since
	}
	s.Keeper.Learned(r.Context(), asked.until)
	return asked, true
}

// appendUnknown appends the edits of which it isn't known what they changed, as what ends an answer.
func appendUnknown(to []byte, missing []changed.Range) []byte {
	to = append(to, `,"unknown":[`...)
	for i, one := range missing {
		if i > 0 {
			to = append(to, ',')
		}
		to = append(strconv.AppendUint(append(to, `{"since":`...), one.After, 10), `,"until":`...)
		to = append(strconv.AppendUint(to, one.Last, 10), '}')
	}
	return append(to, ']')
}
