package main

import (
	"fmt"
	"net/http"
	"strings"
	"testing"
)

// posted sends an edit with fields of its head, and gives the status.
func (f *front) posted(host string, fields map[string]string, l string) int {
	f.t.Helper()
	request, err := http.NewRequest(http.MethodPost, f.url("/lines"), strings.NewReader(l))
	if err != nil {
		f.t.Fatal(err)
	}
	request.Host = host
	for name, value := range fields {
		request.Header.Set(name, value)
	}
	answer, err := http.DefaultClient.Do(request)
	if err != nil {
		f.t.Fatal(err)
	}
	status, _ := bodyOf(f.t, answer)
	return status
}

// posting is a request of a page, and the status that it has to have.
type posting struct {
	host, origin string
	status       int
}

func (f *front) pages(all []posting) {
	f.t.Helper()
	for i, one := range all {
		l := fmt.Sprintf(`{"do":"person.add","name":"extra-%d"}`, i)
		fields := map[string]string{}
		if one.origin != "" {
			fields["Origin"] = one.origin
		}
		if status := f.posted(one.host, fields, l); status != one.status {
			f.t.Errorf("a page of %q asks %q, and is answered %d", one.origin, one.host, status)
		}
		if dump := f.must("/dump"); strings.Contains(dump, fmt.Sprintf("extra-%d", i)) != (one.status == http.StatusOK) {
			f.t.Errorf("a page of %q asks %q: %s", one.origin, one.host, dump)
		}
	}
}

// TestRebinding asks as other hosts than the front's, as a page whose name was made to lead to its address.
func TestRebinding(t *testing.T) {
	f := begin(t, t.TempDir())
	_, port, _ := strings.Cut(f.address, ":")
	f.pages([]posting{
		{"evil.example", "http://evil.example", 421},
		{"evil.example:" + port, "http://evil.example:" + port, 421},
		{"evil.example", "", 421},
		{"localhost.evil.example", "", 421},
		{"[::1]:" + port, "", 421},
		{"127.0.0.2:" + port, "", 421},
		{"localhost:" + port, "http://evil.example", 403},
		{"localhost:" + port, "http://localhost:3000", 403},
		{"localhost:" + port, "http://localhost", 403},
		{"localhost:" + port, "null", 403},
		{f.address, "http://" + f.address, 200},
		{"localhost:" + port, "http://localhost:" + port, 200},
		{"LocalHost.", "", 200},
		{"127.0.0.1", "", 200},
	})
	for _, host := range []string{"", "Host: evil.example\r\n"} {
		if status, _ := f.raw("GET /counts HTTP/1.0\r\n" + host + "\r\n"); status != http.StatusMisdirectedRequest {
			t.Errorf("%q is answered %d", host, status)
		}
	}
}

// TestAllAddresses listens at all addresses of the machine, and is asked as that at which a client came.
func TestAllAddresses(t *testing.T) {
	f := launch(t, t.TempDir(), "--listen", "[::]:0", "--without-tls")
	f.at("127.0.0.1")
	_, port, _ := strings.Cut(f.address, ":")
	f.pages([]posting{{"127.0.0.1:" + port, "", 200}, {"127.0.0.2:" + port, "", 421}, {"evil.example", "", 421}})
}

// TestNamedHosts names the host of a server before the front, which says another one than the browser did.
func TestNamedHosts(t *testing.T) {
	f := begin(t, t.TempDir(), "--host", "review.example", "--host", "127.0.0.1", "--host", "other.example:8443")
	f.pages([]posting{
		{"127.0.0.1:8080", "https://review.example", 200},
		{"review.example", "https://review.example", 200},
		{"Review.Example:8443", "", 200},
		{"other.example:8443", "https://other.example:8443", 200},
		{"127.0.0.1", "https://other.example:8443", 200},
		{"127.0.0.1", "https://other.example", 403},
		{"127.0.0.1", "https://review.example:8443", 403},
		{"other.example", "", 421},
		{"127.0.0.1", "https://evil.example", 403},
		{"localhost", "", 421},
	})
}
