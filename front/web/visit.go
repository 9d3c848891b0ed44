package web

import (
	"context"
	"net/http"
	"sync"
	"time"

	"review-front/access"
)

// lookAgain is how long nobody looks at most whether the time is over of what somebody showed: clocks may be set.
const lookAgain = time.Minute

// notKnown says why somebody isn't known, or isn't any more.
type notKnown struct{ error }

// visit is who asks, for as long as his request goes on: each line and each event of it is allowed as a new request
// would be. So it is found out again who he is where something was read again meanwhile, and where the time is over of
// what he showed.
type visit struct {
	server  *Server
	request *http.Request
	mutex   sync.Mutex
	known   <-chan struct{} // closed once something was read behind which he may be another
	who     *access.Identity
	until   time.Time // when the time is over of what he showed; zero: never
	begun   bool      // he was let in
	err     error
}

// visiting is the key of a request's visit in its context.
type visiting struct{}

// visitIn is the visit of a request by its context, or nil where everybody may everything.
func visitIn(ctx context.Context) *visit {
	v, _ := ctx.Value(visiting{}).(*visit)
	return v
}

// now is who asks as he is known now, or nil where everybody may everything. It fails where he isn't known any more; the
// name by which what he did is written down stays.
func (v *visit) now() (*access.Identity, error) {
	v.mutex.Lock()
	defer v.mutex.Unlock()
	known := v.server.again.next()
	if v.known == known && (v.until.IsZero() || time.Now().Before(v.until)) {
		return v.who, v.err
	}
	v.known = known
	who, until, err := v.server.identify(v.request)
	if err == nil {
		v.who, v.until, v.begun, v.err = who, until, true, nil
		return who, nil
	}
	if v.err == nil && v.begun {
		v.tell(err)
	}
	v.err = notKnown{err}
	return v.who, v.err
}

// tell tells the log of somebody who was let in and isn't known any more.
func (v *visit) tell(why error) {
	name := "" // that of a certificate, of which nobody is asked who it is
	if v.who != nil {
		name = v.who.Name
	}
	v.server.Log.Error("somebody isn't known any more", "name", name, "path", v.request.URL.Path, "why", why)
}

// identify finds out who asks, and until when that is so; it is nobody where everybody may everything.
func (s *Server) identify(r *http.Request) (who *access.Identity, until time.Time, err error) {
	if until, err = s.counts(r); err != nil || s.Access == nil {
		return nil, until, err
	}
	if who, err = s.Access.Of(r.Header, wayOf(r)); err != nil {
		return nil, until, err
	}
	if until.IsZero() || !who.Until.IsZero() && who.Until.Before(until) {
		until = who.Until
	}
	return who, until, nil
}

// last is who asks as he was known last.
func (v *visit) last() *access.Identity {
	v.mutex.Lock()
	defer v.mutex.Unlock()
	return v.who
}

// left is how long nothing need be looked at while nothing is read again, and what is closed once something is.
func (v *visit) left() (time.Duration, <-chan struct{}) {
	v.mutex.Lock()
	defer v.mutex.Unlock()
	left := lookAgain
	if until := time.Until(v.until); !v.until.IsZero() && until < left {
		left = until
	}
	return left, v.known
}

// gone is closed once who asks isn't known any more, or may nothing any more, unless a context is done before.
func (v *visit) gone(ctx context.Context) <-chan struct{} {
	if v == nil {
		return nil
	}
	gone, could := make(chan struct{}), false
	go func() {
		for ctx.Err() == nil {
			who, err := v.now()
			can := who == nil || !who.MayNothing()
			if err != nil || could && !can {
				close(gone)
				return
			}
			could = can
			v.await(ctx)
		}
	}()
	return gone
}

// lost is the problem of somebody who isn't known any more, or may nothing any more.
func (v *visit) lost() problem {
	who, err := v.now()
	if err == nil && who == nil {
		err = notKnown{errGone} // he is known again, since then
	}
	if err != nil {
		return problemFor(err)
	}
	return problem{Title: "not allowed", Status: http.StatusForbidden, Detail: who.Name + " has no role any more"}
}

// await waits until it has to be found out again who asks, or a context is done.
func (v *visit) await(ctx context.Context) {
	left, known := v.left()
	timer := time.NewTimer(left)
	defer timer.Stop()
	select {
	case <-known:
	case <-timer.C:
	case <-ctx.Done():
	}
}

// stay is somebody who goes on being told what a command tells.
type stay struct {
	visit   *visit
	line    []byte          // the command
	allowed <-chan struct{} // as of which he was allowed it
	known   <-chan struct{} // closed once something was read again
	timer   *time.Timer     // says when the time may be over of what he showed
}

// stays has who asks go on with a command. It is nil where everybody may.
func (s *Server) stays(r *http.Request, command string) *stay {
	v := visitIn(r.Context())
	if v == nil {
		return nil
	}
	return &stay{visit: v, line: commanded(command), timer: time.NewTimer(lookAgain)}
}

// may says whether he may go on.
func (s *stay) may() bool {
	if s == nil {
		return true
	}
	_, err := s.visit.now()
	left, known := s.visit.left()
	wrong := err != nil
	if !wrong && s.allowed != known {
		_, wrong = s.visit.server.judge(s.visit, s.line)
		s.allowed = known
	}
	s.known = known
	s.timer.Reset(left)
	return !wrong
}

// again is what says that it has to be looked at again whether he may, or nothing where everybody may.
func (s *stay) again() (<-chan struct{}, <-chan time.Time) {
	if s == nil {
		return nil, nil
	}
	return s.known, s.timer.C
}

// end says that he is told nothing more.
func (s *stay) end() {
	if s != nil {
		s.timer.Stop()
	}
}

// again tells whoever asks that something was read again.
type again struct {
	mutex sync.Mutex
	known chan struct{}
}

// next is closed when something is read again.
func (a *again) next() <-chan struct{} {
	a.mutex.Lock()
	defer a.mutex.Unlock()
	if a.known == nil {
		a.known = make(chan struct{})
	}
	return a.known
}

// tell says that something was read again.
func (a *again) tell() {
	a.mutex.Lock()
	defer a.mutex.Unlock()
	if a.known != nil {
		close(a.known)
	}
	a.known = make(chan struct{})
}

// ReadAgain says that it was read again who may what: requests that go on are looked at anew.
func (s *Server) ReadAgain() { s.again.tell() }
