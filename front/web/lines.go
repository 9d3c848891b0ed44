package web

import (
	"bytes"
	"context"
	"io"
	"net/http"
	"sync/atomic"
	"time"

	"review-front/keeper"
	"review-front/line"
	"review-front/sessions"
)

const (
	linesType = "application/x-ndjson"
	// window is how many lines of a client are on their way at most; he has the rest of what he sends.
	window = 64
	// windowBytes is how many bytes these have at most, if they are more than one.
	windowBytes = 2 << 20
	// shortBody is how long a body is at most that is read before its lines are sent, so that its connection is kept.
	shortBody = 1 << 16
)

// pending is a line whose reply is due: it comes, or is there.
type pending struct {
	call    *keeper.Call
	line    []byte
	replies <-chan keeper.Reply
	there   []byte
	problem *problem
	long    bool // its reply may be as long as the table
	bytes   int64
	keep    func(keeper.Reply) // writes down what was decided; may be nil
	server  *Server
}

// freeLines answers lines of a client who has his sessions as long as his lines come.
func (s *Server) freeLines(w *answered, r *http.Request, _ map[string]string) {
	client := s.Keeper.Sessions.NewClient()
	defer client.Close()
	s.lines(w, r, client)
}

// lines answers commands as lines by replies as lines, in their order, as they come.
func (s *Server) lines(w *answered, r *http.Request, client *sessions.Client) {
	how, ok := howOf(w, r)
	if !ok {
		return
	}
	switch given := r.Header.Values(keyHeader); {
	case how.dry:
		s.dry(w, r)
		return
	case how.whole:
		s.whole(w, r, given, how)
		return
	case len(given) > 0:
		s.keyed(w, r, given, how)
		return
	}
	by, nobody := s.who(r)
	if nobody != nil {
		nobody.send(w)
		return
	}
	if err := s.Keeper.Await(r.Context()); err != nil {
		problemFor(err).send(w)
		return
	}
	// The request's own context ends with its body, also where replies are still due.
	ctx, cancel := context.WithCancel(context.Background())
	defer cancel()
	in := &stream{
		server: s, client: client, by: by, visit: visitIn(r.Context()), out: make(chan pending, window),
		long: make(chan struct{}, 1), freed: make(chan struct{}, 1), gate: newGate(), tally: s.newTally(how, by),
	}
	if s.Decisions != nil {
		in.keep = func(l []byte, reply keeper.Reply) { s.keepLine(r, l, reply) }
	}
	whole := how.strict || r.ContentLength >= 0 && r.ContentLength <= shortBody
	lines := 0
	if whole {
		body, ok := s.short(w, r, how.strict)
		if !ok {
			return
		}
		in.from, lines = line.NewReader(bytes.NewReader(body)), linesIn(body)
	} else {
		// Replies leave while lines come: such a connection can't be used again.
		w.Header().Set("Connection", "close")
		body := &timed{
			from: r.Body, request: r, idle: s.StreamIdle, stopping: s.stopping, gone: in.visit.gone(ctx),
		}
		defer func() { w.unread = !body.ended }()
		in.from = line.NewReader(body)
	}
	in.answer(ctx, cancel, w, r, whole)
	in.tally.ends(lines)
	in.tally.unread = !whole && !in.ended
	in.close(w)
}

// answer sends lines and writes replies, until there are no more of them.
func (in *stream) answer(ctx context.Context, cancel func(), w *answered, r *http.Request, whole bool) {
	done := make(chan struct{})
	go func() {
		defer close(done)
		defer close(in.out)
		in.send(ctx)
	}()
	in.tally.announce(w)
	to := w
	if in.tally.how.strict {
		to, in.kept = keep(w)
	}
	if in.failed = in.reply(ctx, to); in.failed != nil {
		// The client has gone, or has his answer: what he still sends isn't read.
		in.gate.end()
		cancel()
		if conn := connOf(r); conn != nil && !(whole && (in.failed == errOver || in.kept != nil)) {
			_ = conn.SetReadDeadline(time.Unix(1, 0))
		}
	}
	for next := range in.out {
		next.leave()
	}
	<-done
}

// close ends the answer by what became of the lines, and begins it where it was kept until then.
func (in *stream) close(w *answered) {
	switch {
	case in.kept != nil:
		in.kept.send(w, in.tally, in.failed)
	case in.failed == nil || in.failed == errOver:
		in.tally.tell(w)
	}
}

// reply writes replies in the order of their lines, and sends them on whenever none is ready.
func (in *stream) reply(ctx context.Context, w *answered) error {
	first, any := <-in.out
	if !any {
		w.Header().Set("Content-Type", linesType)
		w.WriteHeader(http.StatusOK)
		return nil
	}
	if err := in.begin(ctx, w, first); err != nil {
		return err
	}
	in.flush(w)
	for next := range in.out {
		reply, told := next.wait(ctx)
		if err := ctx.Err(); err != nil {
			reply.Drop()
			return err
		}
		in.tally.see(next.line, &reply, told)
		if _, err := reply.WriteTo(w); err != nil {
			return err
		}
		in.free(next)
		in.flush(w)
	}
	return nil
}

// flush sends on what was written, if no reply is ready.
func (in *stream) flush(w *answered) {
	if len(in.out) == 0 {
		w.Flush()
	}
}

// wait is the reply, or the problem that stands in its place.
func (p pending) wait(ctx context.Context) (keeper.Reply, *problem) {
	if p.problem != nil {
		return keeper.Reply{Body: p.problem.line()}, p.problem
	}
	if p.replies == nil {
		return keeper.Reply{Body: p.there}, nil
	}
	select {
	case reply := <-p.replies:
		if reply.Err == nil {
			if p.call != nil && p.server != nil {
				reply, _ = p.server.fromDisk(ctx, p.call, reply)
			}
			if p.keep != nil {
				p.keep(reply)
			}
			return reply, nil
		}
		told := problemFor(reply.Err)
		if told.Status != http.StatusServiceUnavailable {
			return keeper.Reply{Body: told.line()}, nil // it is the line that is wrong
		}
		return keeper.Reply{Body: told.line()}, &told
	case <-ctx.Done():
		p.leave()
		return keeper.Reply{}, nil
	}
}

// leave says that nobody waits for the reply.
func (p pending) leave() {
	if p.replies != nil && p.call != nil {
		p.call.Leave()
	}
}

// stream is what a client sends.
type stream struct {
	server *Server
	client *sessions.Client
	by     string
	visit  *visit // nil: he may everything
	from   *line.Reader
	out    chan pending
	long   chan struct{} // holds something while a long reply is due: there is one of them at a time
	bytes  atomic.Int64  // of lines that are on their way
	freed  chan struct{} // says that there is more room
	gate   *gate
	tally  *tally
	ended  bool                       // the client's end came; once nothing more is sent
	kept   *kept                      // the answer, where its status waits for all replies
	failed error                      // why it has no end, or ended with its first line
	keep   func([]byte, keeper.Reply) // writes down what a line decided; may be nil
}

// room waits until there is room for a line of so many bytes, and takes it.
func (in *stream) room(ctx context.Context, bytes int64) {
	for in.bytes.Load() > 0 && in.bytes.Load()+bytes > windowBytes {
		select {
		case <-in.freed:
		case <-ctx.Done():
			return
		}
	}
	in.bytes.Add(bytes)
}

// free gives back what a line took whose reply was written.
func (in *stream) free(written pending) {
	if written.long {
		<-in.long
	}
	in.bytes.Add(-written.bytes)
	select {
	case in.freed <- struct{}{}:
	default:
	}
}

// send sends each line on, until the client's end. Half a line isn't one.
func (in *stream) send(ctx context.Context) {
	for ctx.Err() == nil {
		l, err := in.from.Next()
		in.ended = err == io.EOF
		if in.ended || !in.gate.pass() {
			return
		}
		switch err {
		case nil:
			in.server.Meter.Line()
			next := in.submit(ctx, l)
			if in.put(ctx, next); next.isUnknown() {
				return
			}
		case line.ErrTooLong:
			in.server.Meter.Line()
			in.put(ctx, pending{there: []byte(line.TooLong)})
		case errStopping:
			told := problemFor(keeper.ErrStopping)
			in.put(ctx, pending{problem: &told})
			return
		case errGone:
			told := in.visit.lost()
			in.put(ctx, pending{problem: &told})
			return
		default:
			told := bad("the lines broke off")
			in.put(ctx, pending{problem: &told})
			return
		}
	}
}

// submit puts a line on its way once there is room for it, if whoever sends it may then: waiting may take long.
func (in *stream) submit(ctx context.Context, l []byte) pending {
	next := pending{line: l, long: keeper.IsLong(l), bytes: int64(len(l))}
	in.room(ctx, next.bytes)
	if next.long {
		select {
		case in.long <- struct{}{}:
		case <-ctx.Done():
		}
	}
	told, wrong := in.server.judge(in.visit, l)
	if wrong && told.Status == http.StatusUnauthorized {
		next.problem = &told
		return next
	}
	if wrong {
		next.there = told.line()
		return next
	}
	return in.pass(ctx, l, next)
}

// pass puts a line on its way that there is room for.
func (in *stream) pass(ctx context.Context, l []byte, next pending) pending {
	var err error
	if next.call, err = keeper.Prepare(l, in.name(), in.client); err == nil {
		if in.keep != nil {
			next.keep = func(reply keeper.Reply) { in.keep(l, reply) }
		}
		next.replies, err = in.server.Keeper.Submit(ctx, next.call)
	}
	if err != nil {
		in.gate.failed()
		told := problemFor(err)
		next.problem = &told
	}
	return next
}

// name is by whom a line is written down: he may have got another name since the first.
func (in *stream) name() string {
	if in.visit == nil {
		return in.by
	}
	by, nobody := in.server.who(in.visit.request)
	if nobody != nil {
		return in.by
	}
	return by
}

// isUnknown says that the line wasn't taken since who sent it isn't known any more.
func (p pending) isUnknown() bool {
	return p.problem != nil && p.problem.Status == http.StatusUnauthorized
}

func (in *stream) put(ctx context.Context, next pending) {
	next.server = in.server
	select {
	case in.out <- next:
	case <-ctx.Done():
		next.leave()
	}
}
