package web

import (
	"errors"
	"io"
	"net"
	"net/http"
	"os"
	"time"

	"review-front/line"
)

// pageBytes is how much of a body has to come in its time.
const pageBytes = 1 << 16

var errBodyLength = errors.New("the body is too long")

// body reads a body of no more bytes than a line has. The time it may take began with the request, and begins again
// with each page of it.
func (s *Server) body(w *answered, r *http.Request) ([]byte, error) {
	if r.ContentLength > line.Limit {
		return nil, errBodyLength
	}
	var body []byte
	var err error
	switch {
	case r.ContentLength > pageBytes:
		body = make([]byte, r.ContentLength)
		_, err = io.ReadFull(&paged{from: r.Body, conn: w.conn, time: s.BodyTime}, body)
	case r.ContentLength >= 0:
		body = make([]byte, r.ContentLength)
		_, err = io.ReadFull(r.Body, body)
	default:
		body, err = io.ReadAll(io.LimitReader(&paged{from: r.Body, conn: w.conn, time: s.BodyTime}, line.Limit+1))
		if len(body) > line.Limit {
			return nil, errBodyLength
		}
	}
	if err != nil {
		return nil, err
	}
	return body, w.whole()
}

// taken is the body of a request that one reply answers, whose sender is known by its end too. Where there is none it
// answers why.
func (s *Server) taken(w *answered, r *http.Request) ([]byte, bool) {
	body, err := s.body(w, r)
	if v := visitIn(r.Context()); err == nil && v != nil {
		if _, gone := v.now(); gone != nil {
			problemFor(gone).send(w)
			return nil, false
		}
	}
	if err == nil {
		return body, true
	}
	if errors.Is(err, errBodyLength) {
		refuse(w, []byte(line.TooLong))
	} else {
		brokenOff(err).send(w)
	}
	return nil, false
}

// brokenOff is the problem of a body that ended before its end.
func brokenOff(err error) problem {
	if errors.Is(err, os.ErrDeadlineExceeded) {
		return problem{Title: "too slow", Status: http.StatusRequestTimeout, Detail: "the body didn't come in its time"}
	}
	return bad("the body broke off")
}

// paged reads a body whose time begins again with each page that came.
type paged struct {
	from io.Reader
	conn net.Conn
	time time.Duration
	came int // since the time began
}

// Read reads what comes.
func (p *paged) Read(to []byte) (int, error) {
	n, err := p.from.Read(to)
	if p.came += n; p.came >= pageBytes && p.conn != nil {
		p.came = 0
		_ = p.conn.SetReadDeadline(time.Now().Add(p.time))
	}
	return n, err
}
