package web

import (
	"io"
	"net/http"
	"strconv"
	"time"

	"review-front/notices"
)

// Beat is how often a listener hears something, so that he knows that the front is there.
const Beat = 15 * time.Second

// notices tells a listener what edits change, as server-sent events.
func (s *Server) notices(w *answered, r *http.Request, _ map[string]string) {
	hears, err := wantedOf(r.URL.RawQuery)
	if err != nil {
		bad(err.Error()).send(w)
		return
	}
	if err := s.Keeper.Await(r.Context()); err != nil {
		problemFor(err).send(w)
		return
	}
	w.Header().Set("Content-Type", "text/event-stream")
	w.Header().Set("Cache-Control", "no-store")
	w.WriteHeader(http.StatusOK)
	w.Flush()
	if r.Method == http.MethodHead {
		return
	}
	listener := s.listener(r.Header.Get("Last-Event-ID"))
	defer listener.Leave()
	s.tell(w, r, listener, hears)
}

// tell tells a listener what happens, until one of both ends it, or he may not listen any more.
func (s *Server) tell(w *answered, r *http.Request, listener *notices.Listener, hears *wanted) {
	tick := time.NewTicker(s.Beat)
	defer tick.Stop()
	stay := s.stays(r, "notices")
	defer stay.end()
	for stay.may() {
		var err error
		again, over := stay.again()
		select {
		case event, open := <-listener.Events():
			if !open || !stay.may() {
				return
			}
			err = sendEvent(w, event, hears)
			listener.Took(event)
		case <-tick.C:
			_, err = w.Write([]byte(":\n\n"))
		case <-again:
		case <-over:
		case <-r.Context().Done():
			return
		case <-s.stopping:
			return
		}
		if err != nil {
			return
		}
		w.Flush()
	}
}

// listener listens from now on, or from the last event that one heard who comes back.
func (s *Server) listener(last string) *notices.Listener {
	if last == "" {
		return s.Keeper.Listen()
	}
	heard, err := strconv.ParseUint(last, 10, 64)
	if err != nil {
		heard = notices.Unknown
	}
	return s.Keeper.Return(heard)
}

// sendEvent sends an event. What all listeners are told is one text, of which none has a copy.
func sendEvent(w io.Writer, event notices.Event, hears *wanted) error {
	serial := strconv.FormatUint(event.Serial, 10)
	data := []byte(`{"serial":` + serial + `}`)
	if event.Kind == notices.Told {
		data = event.Data
		if hears != nil {
			return hears.send(w, serial, event.Reader())
		}
	}
	for _, part := range [][]byte{[]byte("event: " + event.Kind + "\nid: " + serial + "\ndata: "), data} {
		if _, err := w.Write(part); err != nil {
			return err
		}
	}
	if event.Rest != nil {
		if _, err := io.Copy(w, event.Rest.Reader()); err != nil {
			return err
		}
	}
	_, err := w.Write([]byte("\n\n"))
	return err
}
