package main

import (
	"bytes"
	"crypto/ecdsa"
	"crypto/elliptic"
	"crypto/rand"
	"crypto/tls"
	"crypto/x509"
	"crypto/x509/pkix"
	"encoding/pem"
	"io"
	"math/big"
	"net"
	"net/http"
	"os"
	"path/filepath"
	"strings"
	"testing"
	"time"
)

// certified writes a key and a certificate of a name, signed by itself, and gives the files.
func certified(t *testing.T, folder, name string) (certificate, key string) {
	t.Helper()
	return signed(t, folder, name, &x509.Certificate{
		Subject: pkix.Name{CommonName: name}, IPAddresses: []net.IP{net.IPv4(127, 0, 0, 1)},
	})
}

// signed writes a key and a certificate with the names that are given, signed by itself, and gives the files.
func signed(t *testing.T, folder, file string, about *x509.Certificate) (certificate, key string) {
	t.Helper()
	private, err := ecdsa.GenerateKey(elliptic.P256(), rand.Reader)
	if err != nil {
		t.Fatal(err)
	}
	about.SerialNumber = big.NewInt(1)
	if about.NotAfter.IsZero() {
		about.NotAfter = time.Now().Add(time.Hour)
	}
	about.BasicConstraintsValid, about.IsCA = true, true
	about.ExtKeyUsage = []x509.ExtKeyUsage{x509.ExtKeyUsageServerAuth, x509.ExtKeyUsageClientAuth}
	about.KeyUsage = x509.KeyUsageDigitalSignature | x509.KeyUsageCertSign
	content, err := x509.CreateCertificate(rand.Reader, about, about, &private.PublicKey, private)
	if err != nil {
		t.Fatal(err)
	}
	written, err := x509.MarshalECPrivateKey(private)
	if err != nil {
		t.Fatal(err)
	}
	certificate, key = filepath.Join(folder, file+".pem"), filepath.Join(folder, file+".key")
	for file, block := range map[string]*pem.Block{certificate: {Type: "CERTIFICATE", Bytes: content}, key: {Type: "EC PRIVATE KEY", Bytes: written}} {
		if err := os.WriteFile(file, pem.EncodeToMemory(block), 0o600); err != nil {
			t.Fatal(err)
		}
	}
	return certificate, key
}

// encrypted is a front that serves by TLS to clients with one of some certificates.
type encrypted struct {
	*front
	roots *x509.CertPool
}

// secure starts a front that answers the clients of a file.
func secure(t *testing.T, path, clients string, more ...string) encrypted {
	t.Helper()
	own, ownKey := certified(t, t.TempDir(), "front")
	f := launch(t, path, append([]string{"--certificate", own, "--key", ownKey, "--clients", clients}, more...)...)
	eventually(t, "the front listens", func() bool { return strings.Contains(f.log(), "the state stands") })
	f.address = addressOf.FindStringSubmatch(f.log())[1]
	s := encrypted{front: f, roots: x509.NewCertPool()}
	content, err := os.ReadFile(own)
	if err != nil || !s.roots.AppendCertsFromPEM(content) {
		t.Fatal("no certificate", err)
	}
	return s
}

// edit adds a person, as the client of some certificates.
func (s encrypted) edit(name string, pairs ...tls.Certificate) (int, string, error) {
	config := &tls.Config{RootCAs: s.roots, Certificates: pairs}
	client := &http.Client{Transport: &http.Transport{TLSClientConfig: config}}
	l := `{"do":"person.add","name":"` + name + `"}`
	answer, err := client.Post("https://"+s.address+"/lines", "", strings.NewReader(l))
	if err != nil {
		return 0, "", err
	}
	defer answer.Body.Close()
	body, err := io.ReadAll(answer.Body)
	return answer.StatusCode, string(body), err
}

// loaded is a certificate and its key.
func loaded(t *testing.T, certificate, key string) tls.Certificate {
	t.Helper()
	pair, err := tls.LoadX509KeyPair(certificate, key)
	if err != nil {
		t.Fatal(err)
	}
	return pair
}

// TestCertificateRoles serves by TLS to clients who are known by a certificate, also one without a common name, or by a
// token: not to those with a certificate that is unknown, has expired, or is signed by nobody.
func TestCertificateRoles(t *testing.T) {
	files := t.TempDir()
	pairs := map[string]tls.Certificate{}
	var content []byte
	for name, about := range map[string]*x509.Certificate{
		"eve":   {Subject: pkix.Name{CommonName: "eve"}},
		"max":   {EmailAddresses: []string{"max@example"}},
		"carl":  {Subject: pkix.Name{CommonName: "carl"}},
		"late":  {Subject: pkix.Name{CommonName: "eve"}, NotAfter: time.Now().Add(-time.Minute)},
		"other": {Subject: pkix.Name{CommonName: "eve"}},
	} {
		certificate, key := signed(t, files, name, about)
		pairs[name] = loaded(t, certificate, key)
		if part, err := os.ReadFile(certificate); err != nil {
			t.Fatal(err)
		} else if name != "other" {
			content = append(content, part...)
		}
	}
	clients := filepath.Join(files, "all.pem")
	if err := os.WriteFile(clients, content, 0o600); err != nil {
		t.Fatal(err)
	}
	s := secure(t, t.TempDir(), clients, "--access", accessFile(t, `{"name":"eve","roles":["edit"],"certificate":"eve"}`,
		`{"name":"max","roles":["read"],"certificate":"max@example"}`, entry("ann", "edit")))
	for name, want := range map[string]string{"eve": `{"changes"`, "max": `"status":403`, "carl": `"status":401`, "late": "", "other": ""} {
		status, body, err := s.edit(name, pairs[name])
		if (err != nil) != (want == "") || !strings.Contains(body, want) {
			t.Errorf("%s is answered %d %s, %v", name, status, body, err)
		}
	}
	if status, body, err := s.edit("nobody"); err != nil || status != http.StatusUnauthorized {
		t.Errorf("without a certificate and a token it is answered %d %s, %v", status, body, err)
	}
	client := &http.Client{Transport: &http.Transport{TLSClientConfig: &tls.Config{RootCAs: s.roots}}}
	request, err := http.NewRequest(http.MethodPost, "https://"+s.address+"/lines", strings.NewReader(noting("x", 1)))
	if err != nil {
		t.Fatal(err)
	}
	request.Header.Set("Authorization", "Bearer "+tokenOf("ann"))
	answer, err := client.Do(request)
	if err != nil {
		t.Fatal(err)
	}
	if status, body := bodyOf(t, answer); !strings.HasPrefix(body, `{"changes"`) {
		t.Errorf("with a token it is answered %d %s", status, body)
	}
}

// TestCertificates serves by TLS to clients with a certificate alone, and writes down the name in it: also where that
// is no common name. Who has none edits nothing.
func TestCertificates(t *testing.T) {
	files, path := t.TempDir(), t.TempDir()
	eve, eveKey := certified(t, files, "eve")
	mail, mailKey := signed(t, files, "mail", &x509.Certificate{
		DNSNames: []string{"host.example"}, EmailAddresses: []string{"max@example"},
	})
	nobody, nobodyKey := signed(t, files, "nobody", &x509.Certificate{Subject: pkix.Name{Country: []string{"AT"}}})
	clients := filepath.Join(files, "all.pem")
	var content []byte
	for _, one := range []string{eve, mail, nobody} {
		part, err := os.ReadFile(one)
		if err != nil {
			t.Fatal(err)
		}
		content = append(content, part...)
	}
	if err := os.WriteFile(clients, content, 0o600); err != nil {
		t.Fatal(err)
	}
	s := secure(t, path, clients)
	if status, reply, err := s.edit("a"); err == nil {
		t.Errorf("a client without a certificate is answered %d %s", status, reply)
	}
	for name, pair := range map[string]tls.Certificate{"ann": loaded(t, eve, eveKey), "ben": loaded(t, mail, mailKey)} {
		if status, reply, err := s.edit(name, pair); err != nil || !strings.HasPrefix(reply, `{"changes":0`) {
			t.Errorf("a client with a certificate is answered %d %s, %v", status, reply, err)
		}
	}
	if status, reply, err := s.edit("cal", loaded(t, nobody, nobodyKey)); err != nil || status != http.StatusForbidden {
		t.Errorf("a client whose certificate has no name is answered %d %s, %v", status, reply, err)
	}
	var told bytes.Buffer
	status := history([]string{"--journal", path}, &told, &told)
	for part, count := range map[string]int{`"by":"eve"`: 1, `"by":"max@example"`: 1, "\n": 2} {
		if status != 0 || strings.Count(told.String(), part) != count {
			t.Fatalf("the history is %d\n%s", status, told.String())
		}
	}
}
