package main

import (
	"bufio"
	"crypto/tls"
	"fmt"
	"net/http"
	"os"
	"strings"
	"syscall"
	"testing"
)

// shown is the name in the certificate that the front shows, and the connection by which it was seen.
func (f *front) shown() (string, *tls.Conn) {
	f.t.Helper()
	conn, err := tls.Dial("tcp", f.address, &tls.Config{InsecureSkipVerify: true})
	if err != nil {
		f.t.Fatal(err)
	}
	f.t.Cleanup(func() { conn.Close() })
	return conn.ConnectionState().PeerCertificates[0].Subject.CommonName, conn
}

// TestReload gives the front another certificate, and then none that can be read: new connections are shown the one
// that was read last, and those that there are stay.
func TestReload(t *testing.T) {
	theProgram(t)
	files := t.TempDir()
	certificate, key := certified(t, files, "first")
	f := launch(t, t.TempDir(), "--certificate", certificate, "--key", key)
	eventually(t, "the front serves", func() bool { return strings.Contains(f.log(), "the state stands") })
	f.address = addressOf.FindStringSubmatch(f.log())[1]
	name, old := f.shown()
	if name != "first" {
		t.Fatalf("the front shows %s", name)
	}
	for i, step := range []struct{ told, name string }{{"were read again", "second"}, {"can't be read again", "second"}} {
		if i == 0 {
			other, otherKey := certified(t, files, "second")
			for from, to := range map[string]string{other: certificate, otherKey: key} {
				if err := os.Rename(from, to); err != nil {
					t.Fatal(err)
				}
			}
		} else if err := os.WriteFile(certificate, []byte("nothing"), 0o600); err != nil {
			t.Fatal(err)
		}
		f.hangUp(step.told)
		if name, _ := f.shown(); name != step.name {
			t.Errorf("after %d changes the front shows %s", i+1, name)
		}
	}
	replies := bufio.NewReader(old)
	eventually(t, "the connection of before is answered", func() bool {
		fmt.Fprint(old, "GET /readyz HTTP/1.1\r\nHost: localhost\r\n\r\n")
		answer, err := http.ReadResponse(replies, nil)
		if err != nil {
			t.Fatal(err)
		}
		status, _ := bodyOf(t, answer)
		return status == http.StatusOK
	})
}

// hangUp tells the front to read its certificates again, and waits until it says so.
func (f *front) hangUp(told string) {
	f.t.Helper()
	if err := f.process.Process.Signal(syscall.SIGHUP); err != nil {
		f.t.Fatal(err)
	}
	eventually(f.t, "the front says that certificates "+told, func() bool { return strings.Contains(f.log(), told) })
}

// TestHangUp sends SIGHUP to a front that has no certificates: it serves on, with the same program.
func TestHangUp(t *testing.T) {
	f := begin(t, t.TempDir())
	before := f.programs()
	f.hangUp("no certificates")
	f.accept(`{"do":"person.add","name":"ann"}`)
	if len(f.programs()) != len(before) {
		t.Error("there is another program")
	}
}
