package web

import (
	"crypto/x509"
	"fmt"
	"net/http"
	"sync"
	"time"
)

// Signing says why the certificates that a client showed don't count, if they don't.
type Signing func(shown []*x509.Certificate) error

// certified is a connection whose client may have shown a certificate: whether that still counts.
type certified struct {
	mutex sync.Mutex
	known <-chan struct{} // as of which it was looked at
	err   error
}

// certifying is the key of that in the context of a connection's requests.
type certifying struct{}

// hasShown says whether who asks showed a certificate of which somebody says whether it counts.
func (s *Server) hasShown(r *http.Request) bool {
	return s.Signed != nil && r.TLS != nil && len(r.TLS.PeerCertificates) > 0
}

// counts is until when the certificate counts that who asks showed, or why it doesn't any more. A connection of before
// has the certificate of before: that is looked at anew when certificates were read again, and when its time is over.
func (s *Server) counts(r *http.Request) (until time.Time, err error) {
	if !s.hasShown(r) {
		return until, nil
	}
	shown := r.TLS.PeerCertificates
	until = shown[0].NotAfter
	connection, is := r.Context().Value(certifying{}).(*certified)
	if !is {
		connection = &certified{}
	}
	connection.mutex.Lock()
	defer connection.mutex.Unlock()
	if known := s.again.next(); connection.known != known || !time.Now().Before(until) {
		connection.known, connection.err = known, nil
		if err := s.Signed(shown); err != nil {
			connection.err = fmt.Errorf("the certificate doesn't count any more: %w", err)
		}
	}
	return until, connection.err
}
