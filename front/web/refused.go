package web

import (
	"context"
	"sync"
	"time"

	"review-front/line"
)

const (
	// refusedEvery is how often it is logged what was refused.
	refusedEvery = time.Minute
	// mostRefused is of how many clients and numbers it is counted meanwhile.
	mostRefused = 1000
	// shownBytes is how much of a line, or of a name, is logged.
	shownBytes = 200
)

// refusedAs is a number by which lines of a client were refused.
type refusedAs struct {
	by          string
	number, sub int
}

// refusedLines are how many, and the first of them.
type refusedLines struct {
	count   int
	command string
	first   []byte
}

// refusalCount counts lines that the program refuses, since a number alone is seen by nobody who looks after the front.
type refusalCount struct {
	mutex sync.Mutex
	rows  map[refusedAs]*refusedLines
	order []refusedAs // as they came
	more  int         // lines that have no row
}

// count counts a line.
func (c *refusalCount) count(by string, number, sub int, l []byte) {
	as := refusedAs{by: string(beginning([]byte(by))), number: number, sub: sub}
	c.mutex.Lock()
	defer c.mutex.Unlock()
	row := c.rows[as]
	if row == nil && len(c.rows) >= mostRefused {
		c.more++
		return
	}
	if row == nil {
		if c.rows == nil {
			c.rows = map[refusedAs]*refusedLines{}
		}
		row = &refusedLines{command: line.Command(l), first: append([]byte(nil), beginning(l)...)}
		c.rows[as], c.order = row, append(c.order, as)
	}
	row.count++
}

// refuses counts a line, if that is what its reply says.
func (s *Server) refuses(by string, l, reply []byte) {
	if number, sub, ok := line.ReadRefusal(reply); ok {
		s.refusals.count(by, number, sub, l)
	}
}

// take gives what was counted, and begins anew.
func (c *refusalCount) take() (rows map[refusedAs]*refusedLines, order []refusedAs, more int) {
	c.mutex.Lock()
	defer c.mutex.Unlock()
	rows, order, more = c.rows, c.order, c.more
	c.rows, c.order, c.more = nil, nil, 0
	return rows, order, more
}

// beginning is as much of a text as is logged.
func beginning(text []byte) []byte {
	if len(text) > shownBytes {
		return append(append([]byte(nil), text[:shownBytes]...), "..."...)
	}
	return text
}

// TellRefused logs what was refused since the last time. At the end of the front the program isn't asked any more.
func (s *Server) TellRefused(ended bool) {
	rows, order, more := s.refusals.take()
	reasons := reasons{server: s, ended: ended}
	for _, as := range order {
		row := rows[as]
		pairs := []any{"by", as.by, "refused", as.number}
		if as.sub != 0 {
			pairs = append(pairs, "sub", as.sub)
		}
		why := reasons.why(row.command, as.number, as.sub)
		s.Log.Info("lines were refused", append(pairs, "lines", row.count, "why", why, "first", string(row.first))...)
	}
	if more > 0 {
		s.Log.Info("lines of others were refused", "lines", more)
	}
}

// tellRefusals does so from time to time, until the context is done.
func (s *Server) tellRefusals(ctx context.Context) {
	tick := time.NewTicker(s.RefusedEvery)
	defer tick.Stop()
	for {
		select {
		case <-ctx.Done():
			return
		case <-tick.C:
			s.TellRefused(false)
		}
	}
}
