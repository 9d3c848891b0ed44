package web

import (
	"bytes"
	"context"
	"fmt"
	"net/http"

	"review-front/keeper"
	"review-front/keys"
	"review-front/line"
)

const (
	// keyHeader is the field with the key of a body of edits, which may be sent again.
	keyHeader = "Idempotency-Key"
	// keyBytes is how long a key is at most.
	keyBytes = 255
	// keyedLines is how many lines a body with a key has at most.
	keyedLines = 64
)

// keyed answers lines that are edits and have a key.
func (s *Server) keyed(w *answered, r *http.Request, given []string, how how) {
	body, ok := s.taken(w, r)
	if !ok {
		return
	}
	edits, ok := editsOf(body, keyedLines)
	if !ok {
		bad(fmt.Sprintf("a body with %s has edits alone, from 1 to %d", keyHeader, keyedLines)).send(w)
		return
	}
	if !s.mayAll(w, r, edits...) {
		return
	}
	replies, told, ok := s.once(w, r, given, edits, func(by string, edits [][]byte, first *keys.Line) []keeper.Reply {
		return s.inOrder(r.Context(), by, edits, *first, nil)
	})
	if !ok {
		return
	}
	s.sendLines(w, r, how, edits, replies, told)
}

// sendLines answers with replies as lines, and a problem in the place of that which there is none of.
func (s *Server) sendLines(w *answered, r *http.Request, how how, edits, replies [][]byte, told *problem) {
	by, _ := s.who(r)
	tally := s.newTally(how, by)
	var body bytes.Buffer
	for i, reply := range replies {
		seen := keeper.Reply{Body: reply}
		tally.sees(edits[i], &seen, nil)
		body.Write(seen.Body)
		body.WriteByte('\n')
	}
	if told != nil {
		seen := keeper.Reply{Body: told.line()}
		tally.sees(nil, &seen, told)
		body.Write(seen.Body)
		body.WriteByte('\n')
	}
	tally.ends(len(edits))
	tally.announce(w)
	if len(replies) == 0 && told != nil {
		told.head(w, linesType)
	} else {
		tally.head(w)
	}
	// Who has gone isn't told.
	_, _ = w.Write(body.Bytes())
	tally.tell(w)
}

// keyedOne answers a line that is an edit and has a key.
func (s *Server) keyedOne(w *answered, r *http.Request, given []string, l []byte, known *uint64) {
	if kind, _ := line.Read(l); kind != line.Edit {
		bad("a command with " + keyHeader + " is an edit").send(w)
		return
	}
	one := [][]byte{l}
	replies, told, ok := s.once(w, r, given, one, func(by string, edits [][]byte, first *keys.Line) []keeper.Reply {
		return s.inOrder(r.Context(), by, edits, *first, known)
	})
	switch {
	case !ok:
	case told != nil:
		told.send(w)
	case !refuse(w, replies[0]):
		sendJSON(w, replies[0])
	}
}

// editsOf is the lines of a body, where all are edits and no more than so many.
func editsOf(body []byte, most int) ([][]byte, bool) {
	var edits [][]byte
	for from := line.NewReader(bytes.NewReader(body)); ; {
		l, err := from.Next()
		if err != nil {
			return edits, len(edits) > 0
		}
		if kind, _ := line.Read(l); kind != line.Edit || len(edits) == most {
			return nil, false
		}
		edits = append(edits, l)
	}
}

// making makes edits of somebody that have a key, of which the first is such a line, or that have none.
type making func(by string, edits [][]byte, first *keys.Line) []keeper.Reply

// once makes edits that have a key. Those that were answered before get these replies, and the others are made by a
// call, which gives as many replies as there are up to the first that has none. A problem stands in the place of that. It
// is false where it has answered itself, and nothing was sent.
func (s *Server) once(
	w *answered, r *http.Request, given []string, edits [][]byte, call making,
) ([][]byte, *problem, bool) {
	if len(given) != 1 || given[0] == "" || len(given[0]) > keyBytes {
		bad(fmt.Sprintf("%s is one text of at most %d bytes", keyHeader, keyBytes)).send(w)
		return nil, nil, false
	}
	by, nobody := s.who(r)
	if nobody != nil {
		nobody.send(w)
		return nil, nil, false
	}
	// Nobody else's key is this one, if clients have names. Who has none may come again from another address.
	name, _ := s.named(r)
	err := s.Keeper.Await(r.Context())
	var use *keys.Use
	if err == nil {
		use, err = s.Keeper.Keys.Begin(r.Context(), keys.Of(name, given[0]), bytes.Join(edits, []byte("\n")))
	}
	if err != nil {
		problemFor(err).send(w)
		return nil, nil, false
	}
	defer use.End()
	replies := use.Replies()
	if len(replies) == len(edits) {
		return replies, nil, true
	}
	first := use.Line(len(replies))
	for _, reply := range call(by, edits[len(replies):], &first) {
		if reply.Err != nil {
			told := problemFor(reply.Err)
			return replies, &told, true
		}
		replies = append(replies, reply.Body)
	}
	return replies, nil, true
}

// inOrder sends edits one by one, none behind one that has no reply: so whoever sends them again goes on where it
// stopped. `known`, if there is one, is how many edits there are to be before the first.
func (s *Server) inOrder(
	ctx context.Context, by string, edits [][]byte, first keys.Line, known *uint64,
) []keeper.Reply {
	var replies []keeper.Reply
	for i, l := range edits {
		reply := s.edit(ctx, by, l, first.Next(i), known)
		replies, known = append(replies, reply), nil
		if reply.Err != nil || line.NoMemory(reply.Body) {
			break
		}
	}
	return replies
}

// edit sends a line of a body with a key, and waits for its reply also where the client has gone: before it is
// remembered nobody else may have the key.
func (s *Server) edit(ctx context.Context, by string, l []byte, of keys.Line, known *uint64) keeper.Reply {
	s.Meter.Line()
	err := s.still(ctx, l)
	if err != nil {
		return keeper.Reply{Err: err}
	}
	call, err := keeper.Prepare(l, by, nil)
	if err != nil {
		return keeper.Reply{Err: err}
	}
	call.Remember, call.Known = &of, known
	answer, err := s.Keeper.Submit(ctx, call)
	if err != nil {
		return keeper.Reply{Err: err}
	}
	reply := <-answer
	s.refuses(by, l, reply.Body)
	return reply
}
