package main

import (
	"fmt"
	"net"
	"net/http"
	"regexp"
	"testing"
)

// TestAdmin has clients hold all connections: who looks after the front is answered at his own address, and nothing
// else is there.
func TestAdmin(t *testing.T) {
	const places = 4
	f := begin(t, t.TempDir(), "--admin", "127.0.0.1:0", "--connections", fmt.Sprint(places))
	http.DefaultClient.CloseIdleConnections()
	for i := 0; i < 2*places; i++ {
		conn, err := net.Dial("tcp", f.address)
		if err != nil {
			t.Fatal(err)
		}
		defer conn.Close()
	}
	found := regexp.MustCompile(`"admin":"([^"]*)"`).FindStringSubmatch(f.log())
	if found == nil {
		t.Fatalf("no address is told:\n%s", f.log())
	}
	f.address = found[1]
	for path, want := range map[string]int{
		"/healthz": 200, "/readyz": 200, "/metrics": 200, "/": 404, "/table": 404, "/healthz/": 404, "/%68ealthz": 200,
	} {
		if status, body := f.get(path); status != want {
			t.Errorf("%s is answered %d %s", path, status, body)
		}
	}
	if status, _ := f.post("/healthz", ""); status != http.StatusNotFound {
		t.Errorf("POST is answered %d", status)
	}
	request, err := http.NewRequest(http.MethodGet, f.url("/metrics"), nil)
	if err != nil {
		t.Fatal(err)
	}
	request.Host = "elsewhere.example"
	answer, err := http.DefaultClient.Do(request)
	if err != nil {
		t.Fatal(err)
	}
	if status, _ := bodyOf(t, answer); status != http.StatusMisdirectedRequest {
		t.Errorf("as another host it is answered %d", status)
	}
}

// TestEach has one address hold as many connections as it may: its next one is closed, and another address is answered.
func TestEach(t *testing.T) {
	const each = 3
	f := begin(t, t.TempDir(), "--connections-each", fmt.Sprint(each), "--host", "127.0.0.1")
	http.DefaultClient.CloseIdleConnections()
	ask := func(from string) error {
		dialer := net.Dialer{LocalAddr: &net.TCPAddr{IP: net.ParseIP(from)}}
		conn, err := dialer.Dial("tcp", f.address)
		if err != nil {
			return err
		}
		t.Cleanup(func() { conn.Close() })
		if _, err := fmt.Fprint(conn, "GET /healthz HTTP/1.1\r\nHost: 127.0.0.1\r\n\r\n"); err != nil {
			return err
		}
		_, err = conn.Read(make([]byte, 1))
		return err
	}
	for i := 0; i < 2*each; i++ {
		if err := ask("127.0.0.2"); (err != nil) != (i >= each) {
			t.Errorf("connection %d: %v", i, err)
		}
	}
	if err := ask("127.0.0.3"); err != nil {
		t.Errorf("another address isn't answered: %v", err)
	}
}

// TestEachByItself has one address hold what one may that isn't told otherwise: others have places left.
func TestEachByItself(t *testing.T) {
	for _, one := range []struct{ each, connections, most int }{{0, 1024, 960}, {0, 16, 15}, {0, 4, 4}, {2000, 1024, 2000}} {
		if most := (options{each: one.each, connections: one.connections}).most(); most != one.most {
			t.Errorf("of %d connections one address has %d", one.connections, most)
		}
	}
}
