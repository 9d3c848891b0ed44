// Package web answers HTTP with what the program says.
package web

import (
	"context"
	"net"
	"net/http"
	"strings"
	"sync"
	"sync/atomic"
	"time"

	"review-front/access"
	"review-front/authzen"
	"review-front/check"
	"review-front/decisions"
	"review-front/keeper"
	"review-front/logs"
	"review-front/measure"
	"review-front/rights"
	"review-front/sessions"
)

// Options is what a server works with.
type Options struct {
	Keeper      *keeper.Keeper
	Meter       *measure.Meter
	Log         *logs.Log
	Decisions   *decisions.Book  // where decisions are written down; may be nil
	Authzen     *authzen.Mapping // what AuthZEN's types are; nil: its paths aren't served
	Check       *check.File      // how proxies ask about requests; nil: they don't
	Hosts       *Hosts           // as which it is asked; else this machine
	ByHeader    string           // the head's field that says who asks, set by what stands before the front
	Trusted     []string         // names in certificates of clients who are believed in that; without certificates all are
	SessionIdle time.Duration    // after so long without use a session is given back
	BodyTime    time.Duration    // how long a body may take, for each page of it
	StreamIdle  time.Duration    // how long a stream of lines may say nothing
	WriteTime   time.Duration    // how long a client may read nothing
	Signed      Signing          // whether the certificates of clients count; nil: they aren't asked for any
	Access      *access.Gate     // who may what; nil: everybody everything
	Rights      *rights.Judge    // who may send which line, beside his roles; nil: his roles alone count
	DryTime     time.Duration    // how long it may take to tell what lines would change
	Beat        time.Duration    // how often a listener hears something; 0: as Beat says
	// ModuleNames are the names of the modules of attributes, in their order; none: modules are told by number alone.
	ModuleNames []string
	// Called is the attribute of people that has the name by which each is called; nothing: none has.
	Called string
	// RefusedEvery is how often it is logged what was refused; 0: each minute.
	RefusedEvery time.Duration
	// Oldest is how old a sign-off may be that a campaign takes over which doesn't say it, as 365d; nothing: as old as
	// it is.
	Oldest string
	// Head gives the head of the journal's chain, as a line.
	Head func() ([]byte, error)
}

// Server answers requests.
type Server struct {
	Options
	summing chan struct{} // holds something while it is summed up what edits changed

	leases   *sessions.Leases
	drying   chan struct{} // holds something while it is told what lines would change
	metrics  http.Handler
	known    []route
	listing  listing
	calling  calling
	again    again           // tells requests that go on that something was read again
	byLines  map[string]bool // the paths that whoever is known may ask for, since their lines are looked at
	stopping chan struct{}   // closed when streams have to end
	stopped  sync.Once
	leaving  atomic.Bool // the front ends soon
	refusals refusalCount
}

// New makes a server.
func New(options Options) *Server {
	if options.Hosts == nil {
		options.Hosts = NewHosts(nil, "127.0.0.1", nil)
	}
	s := &Server{Options: options, metrics: options.Meter.Handler()}
	if s.Beat == 0 {
		s.Beat = Beat
	}
	if s.RefusedEvery == 0 {
		s.RefusedEvery = refusedEvery
	}
	s.leases = sessions.NewLeases(options.Keeper.Sessions, options.SessionIdle, options.Keeper)
	s.known = s.routes()
	s.byLines = map[string]bool{}
	for path := range forKnown {
		s.byLines[path] = true
	}
	for _, q := range questions {
		s.byLines[q.path] = true
	}
	if options.Keeper.Provision != nil {
		for _, one := range s.scimRoutes() { // each of which sees that its own command is allowed
			s.byLines[one.path] = true
		}
	}
	s.stopping, s.drying = make(chan struct{}), make(chan struct{}, 1)
	s.summing = make(chan struct{}, 1)
	return s
}

// Leave says that the front ends soon: it isn't ready any more, and each connection ends with the answer that is due.
func (s *Server) Leave() { s.leaving.Store(true) }

// Stop ends streams: lines that came whole are answered, and no more are read.
func (s *Server) Stop() { s.stopped.Do(func() { close(s.stopping) }) }

// Sweep gives back sessions that nobody uses, and logs what was refused, until the context is done.
func (s *Server) Sweep(ctx context.Context) {
	tick := time.NewTicker(time.Second)
	defer tick.Stop()
	go s.tellRefusals(ctx)
	for {
		select {
		case <-ctx.Done():
			return
		case <-tick.C:
			s.leases.Sweep()
		}
	}
}

// connection is the key of a request's connection in its context.
type connection struct{}

// KeepConnection puts a connection where its requests find it, so that each read and each write has its time.
func KeepConnection(ctx context.Context, c net.Conn) context.Context {
	ctx = context.WithValue(ctx, certifying{}, &certified{})
	return keepPeer(context.WithValue(ctx, connection{}, c), c)
}

// connOf is the connection of a request, or nil.
func connOf(r *http.Request) net.Conn {
	c, _ := r.Context().Value(connection{}).(net.Conn)
	return c
}

// closing is the field `Connection` of an answer that is the last.
var closing = []string{"close"}

// answered remembers the status of an answer, and gives each write its time.
type answered struct {
	http.ResponseWriter
	status  int
	conn    net.Conn
	time    time.Duration
	unread  bool         // the body wasn't read to its end
	last    *atomic.Bool // connections aren't kept
	authzen bool         // what is wrong is told by AuthZEN's rules
	check   bool         // what is wrong is told a proxy, by a reason
	scim    bool         // what is wrong is told as SCIM has it
}

// begin says by which status the answer begins. A connection whose body wasn't read isn't kept: what is left of it
// would have to be waited for.
func (a *answered) begin(status int) {
	if a.status != 0 {
		return
	}
	a.status = status
	if a.unread || a.last.Load() {
		a.Header()["Connection"] = closing
	}
}

// whole says that the body was read to its end, and from now on the client may say nothing. It fails where the front
// closed the connection, as at its end: what isn't answered then isn't to be done.
func (a *answered) whole() error {
	a.unread = false
	if a.conn == nil {
		return nil
	}
	return a.conn.SetReadDeadline(time.Time{})
}

// end ends the reading of a body of which there is more, so that nobody waits for it.
func (a *answered) end() {
	if a.unread && a.conn != nil {
		linger(a.conn)
		_ = a.conn.SetReadDeadline(time.Unix(1, 0))
	}
}

func (a *answered) WriteHeader(status int) {
	a.begin(status)
	a.allow()
	a.ResponseWriter.WriteHeader(status)
}

func (a *answered) Write(b []byte) (int, error) {
	a.begin(http.StatusOK)
	a.allow()
	return a.ResponseWriter.Write(b)
}

// Flush sends what was written.
func (a *answered) Flush() {
	a.allow()
	if flusher, ok := a.ResponseWriter.(http.Flusher); ok {
		flusher.Flush()
	}
}

func (a *answered) allow() {
	if a.conn != nil {
		_ = a.conn.SetWriteDeadline(time.Now().Add(a.time))
	}
}

// ServeHTTP answers a request. The library would log each query that has a `;`, unless it is told that this is known.
func (s *Server) ServeHTTP(w http.ResponseWriter, r *http.Request) {
	if strings.IndexByte(r.URL.RawQuery, ';') < 0 {
		s.serve(w, r)
		return
	}
	known := func(w http.ResponseWriter, _ *http.Request) { s.serve(w, r) }
	http.AllowQuerySemicolons(http.HandlerFunc(known)).ServeHTTP(w, r)
}

func (s *Server) serve(w http.ResponseWriter, r *http.Request) {
	began := time.Now()
	a := &answered{
		ResponseWriter: w, conn: connOf(r), time: s.WriteTime, unread: r.ContentLength != 0, last: &s.leaving,
	}
	if !a.unread && a.whole() != nil {
		return
	}
	s.asAuthzen(a, r)
	s.asCheck(a, r)
	s.asScim(a, r)
	name := s.answer(a, r)
	a.end()
	a.allow() // for the end of the answer
	if trace := traceOf(r); trace != "" && a.status >= http.StatusInternalServerError {
		s.Log.Error("a request has no answer", "path", r.URL.Path, "status", a.status, "traceparent", trace)
	}
	s.Meter.Request(name, a.status, time.Since(began))
}

// answer answers a request, and says by which name its path is counted.
func (s *Server) answer(w *answered, r *http.Request) string {
	if !s.Hosts.serves(r) {
		misdirected().send(w)
		return "misdirected"
	}
	r, known := s.admit(w, r)
	if !known {
		return "refused"
	}
	if r.URL.Path == "/authorize" {
		s.authorize(w, r)
		return "/authorize"
	}
	if s.asksCheck(r) {
		s.check(w, r)
		return check.Path
	}
	if s.Hosts.elsewhere(r) && !isDesk(r) { // a link to the desk may stand anywhere
		problem{Title: "from another site", Status: http.StatusForbidden, Detail: "a page of another site asks"}.send(w)
		return "elsewhere"
	}
	parts, err := partsOf(r.URL)
	if err != nil {
		bad("the path isn't UTF-8 or has a bad escape").send(w)
		return "unknown"
	}
	route, keys, ok := s.find(r.Method, parts)
	if !ok {
		unknown().send(w)
		return "unknown"
	}
	if !route.takes(r.Method) {
		w.Header().Set("Allow", s.allowed(parts))
		problem{Title: "no such method", Status: http.StatusMethodNotAllowed}.send(w)
		return route.name()
	}
	if s.mayAsk(w, r, route) {
		route.serve(w, r, keys)
	}
	return route.name()
}
