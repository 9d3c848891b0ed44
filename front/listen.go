package main

import (
	"context"
	"crypto/tls"
	"crypto/x509"
	"fmt"
	"net"
	"os"
	"strings"
	"sync/atomic"

	"review-front/logs"
	"review-front/web"
)

// listen opens the address, with TLS if there is a certificate, and gives what TLS works with.
func listen(o options, who *who) (net.Listener, *secrets, error) {
	listener, err := o.open()
	if err != nil {
		return nil, nil, fmt.Errorf("the address: %w", err)
	}
	listener = web.Limit(listener, o.connections, o.most())
	s := &secrets{options: o, who: who}
	if o.certificate != "" {
		if err := s.read(); err != nil {
			listener.Close()
			return nil, nil, err
		}
		listener = tls.NewListener(listener, s.config())
	}
	return listener, s, nil
}

// most is how many connections one address has at most. Who holds that many leaves some to others, also where it is a
// server before the front, which hardly needs all.
func (o options) most() int {
	if o.each > 0 {
		return o.each
	}
	return o.connections - o.connections/16
}

// unixPrefix begins an address that is the file of a socket.
const unixPrefix = "unix:"

// isNear says whether only this machine reaches an address.
func isNear(address string) bool {
	if strings.HasPrefix(address, unixPrefix) {
		return true
	}
	host, _, err := net.SplitHostPort(address)
	ip := net.ParseIP(host)
	return err == nil && (host == "localhost" || ip != nil && ip.IsLoopback())
}

// open opens the address. A socket that another front left is taken away; whether every user of this machine reaches it
// says whether it is known who may what.
func (o options) open() (net.Listener, error) {
	path := strings.TrimPrefix(o.listen, unixPrefix)
	if path == o.listen {
		return net.Listen("tcp", o.listen)
	}
	if about, err := os.Stat(path); err == nil && about.Mode()&os.ModeSocket != 0 {
		if left, err := net.Dial("unix", path); err == nil {
			left.Close()
			return nil, fmt.Errorf("somebody listens at %s", path)
		}
		if err := os.Remove(path); err != nil {
			return nil, err
		}
	}
	listener, err := net.Listen("unix", path)
	if err != nil {
		return nil, err
	}
	mode := os.FileMode(0o600)
	if o.access != "" {
		mode = 0o666
	}
	if err := os.Chmod(path, mode); err != nil {
		listener.Close()
		return nil, err
	}
	return listener, nil
}

// secrets is what TLS works with, as it was read last.
type secrets struct {
	options
	who *who
	now atomic.Pointer[tls.Config]
}

// config has each connection begin with what was read last.
func (s *secrets) config() *tls.Config {
	return &tls.Config{GetConfigForClient: func(*tls.ClientHelloInfo) (*tls.Config, error) { return s.now.Load(), nil }}
}

// follow reads the certificates, and who may what, again whenever `again` says so. Where they can't be read those
// before stay.
func (s *secrets) follow(ctx context.Context, again <-chan os.Signal, site *web.Server, log *logs.Log) {
	for {
		select {
		case <-ctx.Done():
			return
		case <-again:
		}
		s.who.again(site, log)
		s.checksAgain(site, log)
		if s.certificate == "" {
			log.Info("there are no certificates to be read again")
		} else if err := s.read(); err != nil {
			log.Error("the certificates can't be read again, and those before stay", "error", err)
		} else {
			site.ReadAgain()
			log.Info("the certificates were read again")
		}
	}
}

// read reads the certificates.
func (s *secrets) read() error {
	own, err := tls.LoadX509KeyPair(s.certificate, s.key)
	if err != nil {
		return fmt.Errorf("the certificate: %w", err)
	}
	config := &tls.Config{Certificates: []tls.Certificate{own}, MinVersion: tls.VersionTLS12}
	if s.clients != "" {
		signers, err := os.ReadFile(s.clients)
		if err != nil {
			return fmt.Errorf("the certificates of clients: %w", err)
		}
		config.ClientCAs = x509.NewCertPool()
		if !config.ClientCAs.AppendCertsFromPEM(signers) {
			return fmt.Errorf("the certificates of clients: %s has none", s.clients)
		}
		config.ClientAuth = tls.RequireAndVerifyClientCert
		if s.who.gate != nil {
			config.ClientAuth = tls.VerifyClientCertIfGiven // who has none has a token
		}
	}
	s.now.Store(config)
	return nil
}

// signed says why a certificate that a client showed isn't signed by what was read last, if it isn't. It is nil where no
// certificates are asked for.
func (s *secrets) signed() web.Signing {
	if s.clients == "" {
		return nil
	}
	return func(shown []*x509.Certificate) error {
		between := x509.NewCertPool()
		for _, one := range shown[1:] {
			between.AddCert(one)
		}
		_, err := shown[0].Verify(x509.VerifyOptions{
			Roots: s.now.Load().ClientCAs, Intermediates: between, KeyUsages: []x509.ExtKeyUsage{x509.ExtKeyUsageClientAuth},
		})
		return err
	}
}
