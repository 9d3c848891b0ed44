package main

import (
	"bufio"
	"crypto/tls"
	"crypto/x509"
	"crypto/x509/pkix"
	"fmt"
	"net/http"
	"os"
	"path/filepath"
	"strings"
	"testing"
	"time"
)

// dial connects as the client of a certificate.
func (s encrypted) dial(pair tls.Certificate) *tls.Conn {
	s.t.Helper()
	config := &tls.Config{RootCAs: s.roots, Certificates: []tls.Certificate{pair}}
	conn, err := tls.Dial("tcp", s.address, config)
	if err != nil {
		s.t.Fatal(err)
	}
	s.t.Cleanup(func() { conn.Close() })
	_ = conn.SetDeadline(time.Now().Add(2 * patient))
	return conn
}

// lines sends the head of a stream of lines over a connection.
func linesOver(conn *tls.Conn) *stream {
	fmt.Fprint(conn, "POST /lines HTTP/1.1\r\nHost: localhost\r\nTransfer-Encoding: chunked\r\n\r\n")
	return &stream{conn: conn}
}

// counts asks for the counts over a connection that is kept, and gives the status.
func counts(t *testing.T, conn *tls.Conn) int {
	t.Helper()
	fmt.Fprint(conn, "GET /counts HTTP/1.1\r\nHost: localhost\r\n\r\n")
	answer, err := http.ReadResponse(bufio.NewReader(conn), nil)
	if err != nil {
		t.Fatal(err)
	}
	status, _ := bodyOf(t, answer)
	return status
}

// TestGoneCertificates takes a certificate out of those of clients, and lets the time of another one end: streams of
// their connections end, and further requests over them are refused. Others go on.
func TestGoneCertificates(t *testing.T) {
	theProgram(t)
	files := t.TempDir()
	clients := filepath.Join(files, "clients.pem")
	pairs, contents := map[string]tls.Certificate{}, map[string][]byte{}
	make := func(name string, ends time.Time) {
		certificate, key := signed(t, files, name, &x509.Certificate{Subject: pkix.Name{CommonName: name}, NotAfter: ends})
		content, err := os.ReadFile(certificate)
		if err != nil {
			t.Fatal(err)
		}
		pairs[name], contents[name] = loaded(t, certificate, key), content
	}
	signing := func(names ...string) {
		var content []byte
		for _, name := range names {
			content = append(content, contents[name]...)
		}
		if err := os.WriteFile(clients, content, 0o600); err != nil {
			t.Fatal(err)
		}
	}
	make("eve", time.Now().Add(time.Hour))
	make("max", time.Now().Add(time.Hour))
	signing("eve", "max")
	s := secure(t, t.TempDir(), clients)
	eves, maxs, kept := linesOver(s.dial(pairs["eve"])), linesOver(s.dial(pairs["max"])), s.dial(pairs["eve"])
	for _, one := range []*stream{eves, maxs} {
		if reply := one.ask(t, newcomer(fmt.Sprintf("%p", one))); !strings.HasPrefix(reply, `{"changes"`) {
			t.Fatalf("an edit is answered %s", reply)
		}
	}
	if status := counts(t, kept); status != http.StatusOK {
		t.Fatalf("a question is answered %d", status)
	}
	signing("max")
	s.hangUp("the certificates were read again")
	_ = eves.send(newcomer("late"))
	eves.ends(t, "whose certificate nobody signs any more")
	if status := counts(t, kept); status != http.StatusUnauthorized {
		t.Errorf("over a connection of before a question is answered %d", status)
	}
	for life := 2 * time.Second; ; life *= 2 {
		ends := time.Unix(time.Now().Add(life).Unix()+1, 0)
		make("brief", ends)
		signing("max", "brief")
		told := strings.Count(s.log(), "the certificates were read again")
		s.hangUp("the certificates were read again")
		eventually(t, "it is read again", func() bool { return strings.Count(s.log(), "the certificates were read again") > told })
		config := &tls.Config{RootCAs: s.roots, Certificates: []tls.Certificate{pairs["brief"]}}
		if conn, err := tls.Dial("tcp", s.address, config); err == nil {
			briefs := linesOver(conn)
			_ = briefs.send(newcomer(fmt.Sprint("brief-", life)))
			if reply, err := briefs.receive(); err == nil && strings.HasPrefix(reply, `{"changes"`) {
				briefs.ends(t, "the time of whose certificate is over")
				if time.Now().Before(ends) {
					t.Error("they end before it is")
				}
				conn.Close()
				break
			}
			conn.Close()
		}
		if time.Now().Before(ends) || life > patient {
			t.Fatal("in its time it doesn't count")
		}
	}
	if reply := maxs.ask(t, `{"do":"names","list":"people"}`); !strings.HasPrefix(reply, `{"names"`) || strings.Contains(reply, "late") {
		t.Errorf("listed are %s", reply)
	}
}
