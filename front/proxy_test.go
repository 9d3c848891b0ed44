package main

import (
	"bytes"
	"crypto/tls"
	"crypto/x509"
	"fmt"
	"net/http"
	"os"
	"path/filepath"
	"strings"
	"testing"
)

// proxied is a front that certificates are asked of: those of a server before it, which is believed, and of somebody
// else.
type proxied struct {
	*front
	roots *x509.CertPool
	files string
}

func beginProxied(t *testing.T, folder string, more ...string) *proxied {
	t.Helper()
	files := t.TempDir()
	own, key := certified(t, files, "front")
	both := filepath.Join(files, "both.pem")
	var content []byte
	for _, name := range []string{"proxy", "eve"} {
		certificate, _ := certified(t, files, name)
		one, err := os.ReadFile(certificate)
		if err != nil {
			t.Fatal(err)
		}
		content = append(content, one...)
	}
	if err := os.WriteFile(both, content, 0o600); err != nil {
		t.Fatal(err)
	}
	f := launch(t, folder, append(more, "--certificate", own, "--key", key, "--clients", both, "--host", "127.0.0.1",
		"--host", "review.example", "--by-header", "X-User", "--by-header-from", "proxy")...)
	eventually(t, "the front serves", func() bool { return strings.Contains(f.log(), "the state stands") })
	f.address = addressOf.FindStringSubmatch(f.log())[1]
	roots := x509.NewCertPool()
	pem, err := os.ReadFile(own)
	if err != nil || !roots.AppendCertsFromPEM(pem) {
		t.Fatal("no certificate", err)
	}
	return &proxied{front: f, roots: roots, files: files}
}

// edit edits by the certificate of a name, or of nobody by a token, for a user if there is one.
func (p *proxied) edit(name, user, l string) {
	p.t.Helper()
	config := &tls.Config{RootCAs: p.roots}
	request, err := http.NewRequest(http.MethodPost, "https://"+p.address+"/lines", strings.NewReader(l))
	if err != nil {
		p.t.Fatal(err)
	}
	if token := strings.TrimPrefix(name, "token of "); token != name {
		request.Header.Set("Authorization", "Bearer "+tokenOf(token))
	} else {
		pair, err := tls.LoadX509KeyPair(filepath.Join(p.files, name+".pem"), filepath.Join(p.files, name+".key"))
		if err != nil {
			p.t.Fatal(err)
		}
		config.Certificates = []tls.Certificate{pair}
	}
	client := &http.Client{Transport: &http.Transport{TLSClientConfig: config}}
	request.Header.Set("Origin", "https://review.example")
	if user != "" {
		request.Header.Set("X-User", user)
	}
	answer, err := client.Do(request)
	if err != nil {
		p.t.Fatal(err)
	}
	if status, body := bodyOf(p.t, answer); status != http.StatusOK || !strings.HasPrefix(body, `{"changes":`) {
		p.t.Errorf("%s edits for %q, and is answered %d %s", name, user, status, body)
	}
}

// TestProxy edits through a server that has a certificate, names its users, and says another host than they did; who
// has another certificate is written down by that, whatever he says.
func TestProxy(t *testing.T) {
	theProgram(t)
	path := t.TempDir()
	p := beginProxied(t, path)
	p.writtenDown(path, [][3]string{
		{"proxy", "ann", "ann"}, {"proxy", "", "proxy"}, {"eve", "ann", "eve"}, {"eve", "", "eve"},
	})
}

// TestProxyTokens edits beside such a server: who has a token and shows no certificate is written down by his name.
func TestProxyTokens(t *testing.T) {
	theProgram(t)
	path := t.TempDir()
	p := beginProxied(t, path, "--access", accessFile(t, entry("ann", "edit"),
		`{"name":"proxy","roles":["edit"],"certificate":"proxy"}`, `{"name":"e","roles":["edit"],"certificate":"eve"}`))
	p.writtenDown(path, [][3]string{
		{"proxy", "the-boss", "the-boss"}, {"token of ann", "the-boss", "ann"}, {"token of ann", "", "ann"},
		{"token of ann", "proxy", "ann"}, {"eve", "the-boss", "e"},
	})
}

// writtenDown has each edit, by whom it says it is, and sees by whom it is written down.
func (p *proxied) writtenDown(path string, all [][3]string) {
	t := p.t
	for i, one := range all {
		p.edit(one[0], one[1], fmt.Sprintf(`{"do":"person.add","name":"extra-%d"}`, i))
	}
	var told bytes.Buffer
	if status := history([]string{"--journal", path}, &told, &told); status != 0 {
		t.Fatalf("the history ends with %d: %s", status, told.String())
	}
	for i, l := range strings.Split(strings.TrimSpace(told.String()), "\n") {
		if !strings.Contains(l, fmt.Sprintf(`"by":%q,`, all[i][2])) {
			t.Errorf("an edit of %s for %q is written down as %s", all[i][0], all[i][1], l)
		}
	}
}
