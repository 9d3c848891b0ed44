package main

import (
	"bufio"
	"crypto/ecdsa"
	"crypto/elliptic"
	"crypto/rand"
	"crypto/x509"
	"crypto/x509/pkix"
	"encoding/base64"
	"encoding/pem"
	"math/big"
	"net"
	"net/http"
	"net/url"
	"os"
	"path/filepath"
	"strings"
	"testing"
	"time"
)

// sends sends a head as it is written here, and gives the answer.
func (f *front) sends(head string) *http.Response {
	f.t.Helper()
	conn, err := net.Dial("tcp", f.address)
	if err != nil {
		f.t.Fatal(err)
	}
	defer conn.Close()
	if _, err := conn.Write([]byte(strings.ReplaceAll(head, "\n", "\r\n"))); err != nil {
		f.t.Fatal(err)
	}
	answer, err := http.ReadResponse(bufio.NewReader(conn), nil)
	if err != nil {
		f.t.Fatal(err)
	}
	answer.Body.Close()
	return answer
}

// TestTraefik asks as Traefik's forwardAuth is said to.
func TestTraefik(t *testing.T) {
	f := begin(t, t.TempDir(), "--check", checkFile(t, checked))
	f.accept(checkedState()...)
	for uri, want := range map[string]int{"/public/a?b=c": 204, "/accounts/2": 403, "/public/..%2fadmin/x": 403} {
		got := f.sends("GET /check HTTP/1.1\nHost: " + f.address + "\nUser-Agent: curl/8\nAccept: */*\nX-User: ann\n" +
			"X-Forwarded-For: 10.0.0.7\nX-Forwarded-Host: app.example\nX-Forwarded-Method: GET\nX-Forwarded-Port: 443\n" +
			"X-Forwarded-Proto: https\nX-Forwarded-Server: traefik\nX-Forwarded-Uri: " + uri + "\nAccept-Encoding: gzip\n\n")
		if got.StatusCode != want || (got.Header.Get("Reason") == "") != (want == 204) {
			t.Errorf("%s is answered %d %v", uri, got.StatusCode, got.Header)
		}
	}
}

// TestEnvoy asks as Envoy's ext_authz over HTTP is said to: by the method and the path of the request itself, behind a
// prefix, and as its host.
func TestEnvoy(t *testing.T) {
	file := checkFile(t, strings.Replace(checked,
		`"request": {"method": "X-Forwarded-Method", "uri": "X-Forwarded-Uri"},`, inline(t, enforcing(t), `"permit"`)+",", 1))
	f := begin(t, t.TempDir(), "--check", file, "--host", "app.example", "--host", "127.0.0.1")
	f.accept(checkedState()...)
	for asked, want := range map[string]int{
		"GET /check/public/a?b=c": 200, "HEAD /check/accounts/1/x": 200, "DELETE /check/public/a": 403,
		"PROPFIND /check/public/a": 403, "GET /check/accounts/2": 403, "GET /check//public/a": 403,
		"GET /check/public/%2e%2e/admin/x": 403, "GET /check/public/%zz": 400, "GET /check/public/..;/a": 403,
		"GET /check": 403, "GET /checks": 404,
	} {
		got := f.sends(asked + " HTTP/1.1\nHost: app.example\nX-User: ann\nContent-Length: 0\nX-Envoy-Internal: true\n" +
			"X-Forwarded-For: 10.0.0.7\nX-Envoy-Expected-Rq-Timeout-Ms: 200\n\n")
		if got.StatusCode != want {
			t.Errorf("%s is answered %d %v", asked, got.StatusCode, got.Header)
		}
	}
}

// certifier signs certificates of clients.
type certifier struct {
	certificate *x509.Certificate
	key         *ecdsa.PrivateKey
}

// signed is a certificate, by another one if there is that, and how it is written.
func (s *certifier) signed(t *testing.T, name string, usage x509.ExtKeyUsage, ends time.Duration) (*certifier, []byte) {
	t.Helper()
	key, err := ecdsa.GenerateKey(elliptic.P256(), rand.Reader)
	if err != nil {
		t.Fatal(err)
	}
	made := &x509.Certificate{
		SerialNumber: big.NewInt(1), Subject: pkix.Name{CommonName: name}, NotBefore: time.Now().Add(-2 * time.Hour),
		NotAfter: time.Now().Add(ends), IsCA: s == nil, BasicConstraintsValid: true,
		KeyUsage: x509.KeyUsageDigitalSignature | x509.KeyUsageCertSign, ExtKeyUsage: []x509.ExtKeyUsage{usage},
	}
	above := &certifier{made, key}
	if s != nil {
		above = s
	}
	content, err := x509.CreateCertificate(rand.Reader, made, above.certificate, &key.PublicKey, above.key)
	if err != nil {
		t.Fatal(err)
	}
	read, err := x509.ParseCertificate(content)
	if err != nil {
		t.Fatal(err)
	}
	return &certifier{read, key}, content
}

// inPEM is a certificate as a file has it.
func inPEM(content []byte) string {
	return string(pem.EncodeToMemory(&pem.Block{Type: "CERTIFICATE", Bytes: content}))
}

// TestCheckCertificates has the certificate say who asks that a client showed the proxy: in each way in which proxies
// write it, where it is signed by whom the file names, for clients, and its time isn't over.
func TestCheckCertificates(t *testing.T) {
	client, server := x509.ExtKeyUsageClientAuth, x509.ExtKeyUsageServerAuth
	authority, content := (*certifier)(nil).signed(t, "authority", client, time.Hour)
	other, _ := (*certifier)(nil).signed(t, "other", client, time.Hour)
	file := checkFile(t, strings.Replace(checked, `{"header": "X-User"}`, `{"certificate": "X-Cert", "authority": "ca.pem"}`, 1))
	if err := os.WriteFile(filepath.Join(filepath.Dir(file), "ca.pem"), []byte(inPEM(content)), 0o600); err != nil {
		t.Fatal(err)
	}
	f := begin(t, t.TempDir(), "--check", file)
	f.accept(checkedState()...)
	_, ann := authority.signed(t, "ann", client, time.Hour)
	_, bob := authority.signed(t, "bob", client, time.Hour)
	_, forServers := authority.signed(t, "ann", server, time.Hour)
	_, over := authority.signed(t, "ann", client, -time.Hour)
	_, forged := other.signed(t, "ann", client, time.Hour)
	for i, one := range []struct {
		written string
		status  int
	}{
		{url.PathEscape(inPEM(ann)), 204}, {base64.StdEncoding.EncodeToString(ann), 204},
		{":" + base64.StdEncoding.EncodeToString(ann) + ":", 204}, {url.PathEscape(inPEM(bob)), 403},
		{url.PathEscape(inPEM(forServers)), 401}, {url.PathEscape(inPEM(over)), 401}, {url.PathEscape(inPEM(forged)), 401},
		{"ann", 401}, {"", 401}, {"%zz", 401},
	} {
		if got := f.checks("GET", "/public/a", "X-Cert", one.written); got.StatusCode != one.status {
			t.Errorf("certificate %d is answered %d %v", i, got.StatusCode, got.Header)
		}
	}
}
