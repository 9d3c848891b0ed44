package web

import (
	"bytes"
	"errors"
	"fmt"
	"net/http"

	"review-front/line"
)

// keptBytes is how long an answer is at most that is kept until its status is known.
const keptBytes = 16 << 20

// errKept says that an answer is longer.
var errKept = errors.New("the replies are longer than is kept")

// short is a body that is read whole before its lines are sent. It answers itself where there is none. Where the status
// waits for all replies, none of them is as long as the table.
func (s *Server) short(w *answered, r *http.Request, strict bool) ([]byte, bool) {
	body, err := s.body(w, r)
	switch {
	case errors.Is(err, errBodyLength) || err == nil && len(body) > shortBody:
		most := fmt.Sprintf("with strict=1 it has at most %d bytes", shortBody)
		problem{Title: "the body is too long", Status: http.StatusRequestEntityTooLarge, Detail: most}.send(w)
	case err != nil:
		brokenOff(err).send(w)
	case strict && asksLong(body):
		bad("a body with strict=1 has no line whose reply may be as long as the table, or as what changed").send(w)
	default:
		return body, true
	}
	return nil, false
}

// asksLong says whether a line of a body has a reply that may be as long as the table.
func asksLong(body []byte) bool {
	for from := line.NewReader(bytes.NewReader(body)); ; {
		l, err := from.Next()
		if err != nil {
			return false
		}
		switch kind, _ := line.Read(l); kind {
		case line.Report, line.Notices, line.Changes:
			return true
		}
	}
}

// linesIn is how many lines a body has.
func linesIn(body []byte) int {
	count := bytes.Count(body, []byte("\n"))
	if len(body) > 0 && body[len(body)-1] != '\n' {
		count++
	}
	return count
}

// kept is an answer that is kept until its status is known.
type kept struct {
	head http.Header
	body bytes.Buffer
}

// keep has what is answered be kept.
func keep(w *answered) (*answered, *kept) {
	k := &kept{head: http.Header{}}
	return &answered{ResponseWriter: k, last: w.last}, k
}

// Header is the head of what is kept, which isn't that of the answer.
func (k *kept) Header() http.Header { return k.head }

// WriteHeader does nothing: the status is that of all lines.
func (k *kept) WriteHeader(int) {}

// Write keeps a part.
func (k *kept) Write(b []byte) (int, error) {
	if k.body.Len()+len(b) > keptBytes {
		return 0, errKept
	}
	return k.body.Write(b)
}

// send answers with what was kept, once it is known what became of each line.
func (k *kept) send(w *answered, t *tally, err error) {
	if errors.Is(err, errKept) {
		detail := fmt.Sprintf("the replies have more than %d bytes together", keptBytes)
		long := problem{Title: "the answer is too long", Status: http.StatusRequestEntityTooLarge, Detail: detail}
		t.fails(&long)
		k.body.Write(append(long.line(), '\n'))
	}
	t.head(w)
	// Who has gone isn't told.
	_, _ = w.Write(k.body.Bytes())
	t.tell(w)
}
