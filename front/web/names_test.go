package web

import (
	"crypto/tls"
	"crypto/x509"
	"crypto/x509/pkix"
	"net"
	"net/http"
	"net/url"
	"testing"
)

// TestNameIn reads the name of certificates: nothing but blanks is none.
func TestNameIn(t *testing.T) {
	uri := &url.URL{Scheme: "spiffe", Host: "example", Path: "/eve"}
	for want, certificate := range map[string]*x509.Certificate{
		"eve":                  {Subject: pkix.Name{CommonName: "eve"}, DNSNames: []string{"host"}},
		"host":                 {Subject: pkix.Name{CommonName: " "}, DNSNames: []string{"", "host"}, URIs: []*url.URL{uri}},
		"eve@example":          {EmailAddresses: []string{"eve@example"}, DNSNames: []string{"host"}},
		"spiffe://example/eve": {URIs: []*url.URL{uri}, IPAddresses: []net.IP{net.IPv4(10, 0, 0, 1)}},
		"10.0.0.1":             {IPAddresses: []net.IP{net.IPv4(10, 0, 0, 1)}},
		"":                     {Subject: pkix.Name{Organization: []string{"a house"}}},
	} {
		if name := nameIn(certificate); name != want {
			t.Errorf("a certificate of %q has the name %q", want, name)
		}
	}
}

// TestWho says who asks: what a server that is believed says in a field of the head, or the name in a certificate, or
// the address.
func TestWho(t *testing.T) {
	with := func(name string) *tls.ConnectionState {
		return &tls.ConnectionState{PeerCertificates: []*x509.Certificate{{Subject: pkix.Name{CommonName: name}}}}
	}
	for _, one := range []struct {
		byHeader string
		said     []string
		secured  *tls.ConnectionState
		want     string // nothing: who asks has a problem
	}{
		{"", []string{"max"}, nil, "192.0.2.1"},
		{"X-User", nil, nil, "192.0.2.1"},
		{"X-User", []string{"max"}, nil, "max"},
		{"X-User", []string{""}, nil, ""},
		{"X-User", []string{"  "}, nil, ""},
		{"X-User", []string{"max", "max"}, nil, ""},
		{"", nil, with("eve"), "eve"},
		{"", nil, with(""), ""},
		{"", nil, &tls.ConnectionState{}, "192.0.2.1"},
		{"X-User", []string{"max"}, &tls.ConnectionState{}, "192.0.2.1"},
		{"X-User", []string{"max"}, with("eve"), "eve"},
		{"X-User", []string{"max"}, with(""), ""},
		{"X-User", []string{"max"}, with("proxy"), "max"},
		{"X-User", []string{""}, with("proxy"), ""},
	} {
		s := &Server{Options: Options{ByHeader: one.byHeader, Trusted: []string{"proxy"}}}
		if one.secured != nil {
			s.Signed = func([]*x509.Certificate) error { return nil }
		}
		r := &http.Request{Header: http.Header{"X-User": one.said}, RemoteAddr: "192.0.2.1:99", TLS: one.secured}
		if name, nobody := s.who(r); name != one.want || (nobody != nil) != (one.want == "") {
			t.Errorf("%v is %q, %v", one, name, nobody)
		}
	}
}
