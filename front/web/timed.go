package web

import (
	"errors"
	"io"
	"net/http"
	"time"
)

var (
	// errStopping says that a stream ends since the front does.
	errStopping = errors.New("the front is stopping")
	// errGone says that a stream ends since who sends it isn't known any more, or may nothing any more.
	errGone = errors.New("who sends has gone")
)

// timed reads a body that may take its time, but for so long may say nothing. It ends when the front stops, and when
// who sends it has gone.
type timed struct {
	from     io.Reader
	request  *http.Request
	idle     time.Duration
	stopping <-chan struct{}
	gone     <-chan struct{} // closed when who sends has gone
	ended    bool            // it was read to its end
}

// over says why no more is read, if that is so.
func (t *timed) over() error {
	select {
	case <-t.stopping:
		return errStopping
	case <-t.gone:
		return errGone
	default:
		return nil
	}
}

// Read reads what comes.
func (t *timed) Read(to []byte) (int, error) {
	conn := connOf(t.request)
	if conn == nil {
		return t.from.Read(to)
	}
	if err := t.over(); err != nil {
		return 0, err
	}
	ended := make(chan struct{})
	watched := make(chan struct{})
	if err := conn.SetReadDeadline(time.Now().Add(t.idle)); err != nil {
		return 0, err
	}
	go func() {
		defer close(watched)
		select {
		case <-t.stopping:
			_ = conn.SetReadDeadline(time.Unix(1, 0))
		case <-t.gone:
			_ = conn.SetReadDeadline(time.Unix(1, 0))
		case <-ended:
		}
	}()
	n, err := t.from.Read(to)
	close(ended)
	<-watched
	if err != nil && err != io.EOF {
		if over := t.over(); over != nil {
			err = over
		}
	} else {
		t.ended = err == io.EOF
		_ = conn.SetReadDeadline(time.Time{})
	}
	return n, err
}
