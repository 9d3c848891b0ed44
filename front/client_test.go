package main

import (
	"bufio"
	"fmt"
	"io"
	"net"
	"net/http"
	"strconv"
	"strings"
	"sync"
	"testing"
	"time"
)

// requestOf is a request for a cell of the clinic.
func requestOf(person, action, resource string) string {
	return fmt.Sprintf(`{"Request":{"AccessSubject":{"Attribute":{"AttributeId":"urn:oasis:names:tc:xacml:1.0:subject:subject-id","Value":%q}},
 "Action":{"Attribute":{"AttributeId":"urn:oasis:names:tc:xacml:1.0:action:action-id","Value":%q}},
 "Resource":{"Attribute":{"AttributeId":"urn:oasis:names:tc:xacml:1.0:resource:resource-id","Value":%q}}}}`, person, action, resource)
}

// TestStopReading lets clients ask for tables and read nothing, go away, and send halves of lines, bodies and heads:
// others are answered all the same.
func TestStopReading(t *testing.T) {
	f := begin(t, t.TempDir(), "--write-time", "2s")
	f.accept(clinic(t)...)
	for i := 0; i < 20; i++ {
		s := f.connect("/lines")
		go func() {
			for s.send(`{"do":"table"}`) == nil {
			}
		}()
		half := f.connect("/lines")
		fmt.Fprint(half.conn, "400\r\n{\"do\":\"pers")
		for _, head := range []string{
			"POST /authorize HTTP/1.1\r\nHost: localhost\r\nContent-Length: 500\r\n\r\n{\"Request\"",
			"POST /authorize HTTP/1.1\r\nHost: fr",
		} {
			conn, err := net.Dial("tcp", f.address)
			if err != nil {
				t.Fatal(err)
			}
			defer conn.Close()
			fmt.Fprint(conn, head)
		}
	}
	slowest := time.Duration(0)
	for i := 0; i < 300; i++ {
		began := time.Now()
		status, body := f.post("/authorize", requestOf("ada", "write", "record-moss"))
		if status != http.StatusOK || !strings.Contains(body, `"Decision":"Permit"`) {
			t.Fatalf("a request is answered %d %s", status, body)
		}
		if took := time.Since(began); took > slowest {
			slowest = took
		}
	}
	// On a machine that has nothing else to do it is some tenths of a second.
	if slowest > 30*time.Second {
		t.Errorf("an answer took %v", slowest)
	}
	t.Logf("the slowest answer took %v", slowest)
	f.accept(`{"do":"person.add","name":"extra"}`)
	// Who reads nothing is let go, and what it held with it.
	eventually(t, "the connections end", func() bool { return f.metric("review_front_waiting_lines") == 0 })
}

// TestManyConnections asks over 300 connections at once, or as many as FRONT_CONNECTIONS says.
func TestManyConnections(t *testing.T) {
	connections := number("FRONT_CONNECTIONS", 300)
	room := strconv.Itoa(connections + 100)
	f := begin(t, t.TempDir(), "--connections", room, "--connections-each", room)
	f.accept(clinic(t)...)
	client := &http.Client{Transport: &http.Transport{MaxIdleConnsPerHost: connections}}
	var all sync.WaitGroup
	for i := 0; i < connections; i++ {
		all.Add(1)
		go func(i int) {
			defer all.Done()
			for round := 0; round < 10; round++ {
				person, want := "ada", "Permit"
				if (i+round)%2 == 1 {
					person, want = "hana", "Deny"
				}
				answer, err := client.Post(f.url("/authorize"), "application/xacml+json", strings.NewReader(requestOf(person, "write", "record-moss")))
				if err != nil {
					t.Error(err)
					return
				}
				body, err := io.ReadAll(answer.Body)
				answer.Body.Close()
				if err != nil || !strings.Contains(string(body), `"Decision":"`+want+`"`) {
					t.Errorf("%s is answered %s, %v", person, body, err)
					return
				}
			}
		}(i)
	}
	all.Wait()
}

// raw sends bytes over a connection of their own, and gives the status and the body of the answer.
func (f *front) raw(content string) (int, string) {
	f.t.Helper()
	conn, err := net.Dial("tcp", f.address)
	if err != nil {
		f.t.Fatal(err)
	}
	defer conn.Close()
	_ = conn.SetDeadline(time.Now().Add(patient))
	// The front may answer, and close, before it has read all.
	_, _ = io.WriteString(conn, content)
	answer, err := http.ReadResponse(bufio.NewReader(conn), nil)
	if err != nil {
		return 0, err.Error()
	}
	defer answer.Body.Close()
	body, _ := io.ReadAll(answer.Body)
	return answer.StatusCode, string(body)
}

// TestNonsense sends what is no request, and sees that the front serves on.
func TestNonsense(t *testing.T) {
	f := begin(t, t.TempDir())
	f.accept(clinic(t)...)
	long := strings.Repeat("x", 1<<20)
	for _, one := range []struct {
		sent   string
		status []int
	}{
		{"GET /nothing HTTP/1.1\r\nHost: localhost\r\n\r\n", []int{404}},
		{"GET /can HTTP/1.1\r\nHost: localhost\r\n\r\n", []int{404}},
		{"GET /can/%FF HTTP/1.1\r\nHost: localhost\r\n\r\n", []int{400}},
		{"GET /can/%zz HTTP/1.1\r\nHost: localhost\r\n\r\n", []int{400}},
		{"GET /authorize HTTP/1.1\r\nHost: localhost\r\n\r\n", []int{405}},
		{"DELETE /table HTTP/1.1\r\nHost: localhost\r\n\r\n", []int{405}},
		{"BREW /table HTTP/1.1\r\nHost: localhost\r\n\r\n", []int{405}},
		{"HEAD /table HTTP/1.1\r\nHost: localhost\r\nConnection: close\r\n\r\n", []int{200}},
		{"GET /who?action=read HTTP/1.1\r\nHost: localhost\r\n\r\n", []int{400}},
		{"GET /who?action=read&resource=rota&more=1 HTTP/1.1\r\nHost: localhost\r\n\r\n", []int{400}},
		{"GET /counts?a HTTP/1.1\r\nHost: localhost\r\n\r\n", []int{400}},
		{"GET /dump?version=x HTTP/1.1\r\nHost: localhost\r\n\r\n", []int{400}},
		{"GET /dump?version=9 HTTP/1.1\r\nHost: localhost\r\n\r\n", []int{400}},
		{"GET /who?action=a;b&resource=rota HTTP/1.1\r\nHost: localhost\r\n\r\n", []int{404}},
		{"HEAD /notices HTTP/1.1\r\nHost: localhost\r\nConnection: close\r\n\r\n", []int{200}},
		{"POST /authorize HTTP/1.1\r\nHost: localhost\r\nContent-Length: 11\r\n\r\n{\"a\":\"b\nc\"}", []int{400}},
		{"POST /authorize HTTP/1.1\r\nHost: localhost\r\nAccept: */*;q=0\r\nContent-Length: 2\r\n\r\n{}", []int{406}},
		{"GET /state HTTP/1.1\r\nHost: localhost\r\n\r\n", []int{200, 404}},
		{"GET /table HTTP/1.1\r\nHost: localhost\r\nX: " + long + "\r\n\r\n", []int{431, 0}},
		{"nonsense\r\n\r\n", []int{400}},
		{"POST /authorize HTTP/1.1\r\nHost: localhost\r\nTransfer-Encoding: chunked\r\n\r\nzz\r\nnonsense\r\n", []int{400}},
		{"POST /lines HTTP/1.1\r\nHost: localhost\r\nTransfer-Encoding: chunked\r\n\r\nzz\r\nnonsense\r\n", []int{400}},
		{"POST /lines HTTP/1.1\r\nHost: localhost\r\nTransfer-Encoding: chunked\r\n\r\nffffffffffffffffffff\r\n", []int{400}},
		{"POST /authorize HTTP/1.1\r\nHost: localhost\r\nContent-Length: -5\r\n\r\n", []int{400}},
		{"POST /authorize HTTP/1.1\r\nHost: localhost\r\nContent-Length: 99999999999\r\n\r\n", []int{413}},
		{"POST /authorize HTTP/1.1\r\nHost: localhost\r\nOrigin: http://b\r\nContent-Length: 2\r\n\r\n{}", []int{403}},
		{"POST /lines HTTP/1.1\r\nHost: localhost\r\nOrigin: http://b\r\nContent-Length: 2\r\n\r\n{}", []int{403}},
		{"POST /authorize HTTP/1.1\r\nHost: localhost\r\nContent-Type: text/csv\r\nContent-Length: 2\r\n\r\n{}", []int{415}},
		{"POST /authorize HTTP/1.1\r\nHost: localhost\r\nAccept: text/html\r\nContent-Length: 2\r\n\r\n{}", []int{406}},
		{"POST /authorize HTTP/1.1\r\nHost: localhost\r\nContent-Length: 2\r\n\r\n{}", []int{400}},
		{"POST /authorize HTTP/1.1\r\nHost: localhost\r\nContent-Length: 31\r\n\r\n{}},\"do\":\"dump\",\"x\":{\"request\":", []int{400}},
		{"POST /authorize HTTP/1.1\r\nHost: localhost\r\nContent-Length: 0\r\n\r\n", []int{400}},
	} {
		status, body := f.raw(one.sent)
		fits := false
		for _, wanted := range one.status {
			fits = fits || status == wanted
		}
		if !fits {
			t.Errorf("%.120q is answered %d %s", one.sent, status, body)
		}
	}
	f.must("/counts")
}

// TestLongLines sends lines of the limit and of one byte more, and a request too long: they are answered as the
// program answers, and the next line is a line of its own.
func TestLongLines(t *testing.T) {
	f := begin(t, t.TempDir())
	blanks := func(l string, length int) string { return l + strings.Repeat(" ", length-len(l)) }
	replies := f.lines(blanks(`{"do":"mark"}`, 1<<20), blanks(`{"do":"mark"}`, 1<<20+1), `{"do":"work"}`, "", blanks("", 5<<20), `{"do":"work"}`)
	for i, want := range []string{`{"mark":0}`, `{"refused":1}`, `{"evaluations":0}`, `{"refused":2}`, `{"refused":1}`, `{"evaluations":0}`} {
		if replies[i] != want {
			t.Errorf("reply %d is %s, and not %s", i, replies[i], want)
		}
	}
	if status, body := f.post("/authorize", blanks(`{"Request":{}}`, 1<<20)); status != http.StatusOK {
		t.Errorf("blanks around a request make it %d %s", status, body)
	}
	if status, body := f.post("/authorize", `{"Request":{`+blanks("", 1<<20)+`}}`); status != 413 || !strings.Contains(body, `"refused":1`) {
		t.Errorf("a request that is too long is answered %d %s", status, body)
	}
	s := f.connect("/lines")
	fmt.Fprintf(s.conn, "5\r\n{\"do\"\r\n")
	fmt.Fprintf(s.conn, "9\r\n:\"work\"}\n\r\n")
	fmt.Fprintf(s.conn, "d\r\n{\"do\":\"work\"}\r\n0\r\n\r\n")
	for i := 0; i < 2; i++ {
		if reply, err := s.receive(); err != nil || reply != `{"evaluations":1}` {
			t.Errorf("a line in pieces is answered %s, %v", reply, err)
		}
	}
	if _, err := s.receive(); err != io.EOF {
		t.Errorf("the stream ends with %v", err)
	}
}
