package web

import (
	"crypto/x509"
	"net"
	"net/http"
	"strings"
)

// who says who asks: his name, or else where he is. It is what is written down of an edit.
func (s *Server) who(r *http.Request) (string, *problem) {
	name, nobody := s.named(r)
	if nobody != nil || name != "" {
		return name, nobody
	}
	host, _, err := net.SplitHostPort(r.RemoteAddr)
	if err != nil {
		host = r.RemoteAddr
	}
	return host, nil
}

// named is what a server before the front says, if it is one that is believed, or else the name in the client's
// certificate, or nothing where neither is there. Who is said to be nobody has a problem.
func (s *Server) named(r *http.Request) (string, *problem) {
	name := ""
	if r.TLS != nil && len(r.TLS.PeerCertificates) > 0 {
		name = nameIn(r.TLS.PeerCertificates[0])
		if name == "" {
			return "", nobody("the client's certificate has no name")
		}
	}
	believed := s.believes(name)
	if v := visitIn(r.Context()); v != nil && v.last() != nil {
		name = v.last().Name
	}
	if s.ByHeader == "" || !believed {
		return name, nil
	}
	said := r.Header.Values(s.ByHeader)
	switch {
	case len(said) == 0:
		return name, nil
	case len(said) > 1:
		return "", nobody("the field " + s.ByHeader + " stands more than once")
	case strings.TrimSpace(said[0]) == "":
		return "", nobody("the field " + s.ByHeader + " names nobody")
	}
	return said[0], nil
}

// believes says whether a client is one who says for whom he asks, by the name in his certificate: where certificates
// are asked for, one of those that were named, and nobody who shows none; where they aren't, everybody.
func (s *Server) believes(name string) bool {
	for _, trusted := range s.Trusted {
		if name == trusted {
			return true
		}
	}
	return s.Signed == nil
}

// nobody is the problem of who has no name, and why.
func nobody(why string) *problem {
	return &problem{Title: "no name", Status: http.StatusForbidden, Detail: why}
}

// nameIn is the name of a certificate's subject: the common name, or where there is none the first that stands among
// the alternative names, an address of mail before a host, a URI and an address (RFC 5280, 4.2.1.6).
func nameIn(certificate *x509.Certificate) string {
	names := []string{certificate.Subject.CommonName}
	names = append(names, certificate.EmailAddresses...)
	names = append(names, certificate.DNSNames...)
	for _, uri := range certificate.URIs {
		names = append(names, uri.String())
	}
	for _, address := range certificate.IPAddresses {
		names = append(names, address.String())
	}
	for _, name := range names {
		if strings.TrimSpace(name) != "" {
			return name
		}
	}
	return ""
}
