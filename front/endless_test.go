package main

import (
	"bufio"
	"fmt"
	"io"
	"net"
	"net/http"
	"strings"
	"testing"
	"time"
)

// endless are requests whose bodies have no end, of each kind that is answered without them, and the status.
var endless = []struct {
	head   string
	status int
}{
	{"POST /authorize HTTP/1.1\r\nHost: localhost\r\n", 408},
	{"POST /authorize HTTP/1.1\r\nHost: localhost\r\nOrigin: http://b\r\n", 403},
	{"POST /authorize HTTP/1.1\r\nHost: localhost\r\nContent-Type: text/plain\r\n", 415},
	{"POST /authorize HTTP/1.1\r\nHost: localhost\r\nAccept: text/plain\r\n", 406},
	{"PUT /authorize HTTP/1.1\r\nHost: localhost\r\n", 405},
	{"POST /lines HTTP/1.1\r\nHost: localhost\r\n", 408},
	{"POST /lines HTTP/1.1\r\nHost: localhost\r\nOrigin: http://b\r\n", 403},
	{"POST /lines HTTP/1.1\r\nHost: elsewhere\r\n", 421},
	{"POST /nothing HTTP/1.1\r\nHost: localhost\r\n", 404},
	{"POST /sessions HTTP/1.1\r\nHost: localhost\r\n", 201},
	{"POST /sessions/none/mark HTTP/1.1\r\nHost: localhost\r\n", 404},
	{"GET /counts HTTP/1.1\r\nHost: localhost\r\n", 200},
	{"GET /healthz HTTP/1.1\r\nHost: localhost\r\n", 200},
	{"GET /metrics HTTP/1.1\r\nHost: localhost\r\n", 200},
	{"DELETE /counts HTTP/1.1\r\nHost: localhost\r\n", 405},
}

// unending are the ways in which a body has no end: what is told of it and comes at once, and what comes then, again and
// again. Bytes that come by themselves are no end.
var unending = []struct{ begin, more string }{
	{"Content-Length: 999\r\n\r\n{", " "},
	{"Content-Length: 99999\r\n\r\n{", " "},
	{"Transfer-Encoding: chunked\r\n\r\n1\r\n{\r\n", "1\r\n \r\n"},
}

// TestEndlessBodies sends bodies that never end over all connections: each is answered, its connection ends, at once
// where the body isn't needed and else in its time, and others are answered then.
func TestEndlessBodies(t *testing.T) {
	const bodyTime = 4 * time.Second
	count := len(endless) * len(unending)
	f := begin(t, t.TempDir(), "--body-time", bodyTime.String(), "--connections", fmt.Sprint(count),
		"--connections-each", fmt.Sprint(count))
	ends := make(chan string, count)
	for _, one := range endless {
		for _, body := range unending {
			if strings.Contains(one.head, "POST /lines") && one.status == 408 {
				body = unending[0] // the lines of others may be far apart
			}
			soon := 3 * bodyTime / 4
			if one.status == 408 {
				soon = 2 * bodyTime
			}
			go func(head, begin, more string, status int) {
				ends <- f.endless(head+begin, more, status, soon)
			}(one.head, body.begin, body.more, one.status)
		}
	}
	time.Sleep(100 * time.Millisecond)
	f.must("/healthz")
	for i := 0; i < count; i++ {
		if wrong := <-ends; wrong != "" {
			t.Error(wrong)
		}
	}
}

// endless sends a body that never ends, and says what is wrong with the answer, or that the connection stays.
func (f *front) endless(sent, more string, status int, soon time.Duration) string {
	conn, err := net.Dial("tcp", f.address)
	if err != nil {
		return err.Error()
	}
	defer conn.Close()
	_ = conn.SetReadDeadline(time.Now().Add(soon))
	if _, err := io.WriteString(conn, sent); err != nil {
		return err.Error()
	}
	go func() {
		for err := error(nil); err == nil; _, err = io.WriteString(conn, more) {
			time.Sleep(200 * time.Millisecond)
		}
	}()
	replies := bufio.NewReader(conn)
	answer, err := http.ReadResponse(replies, nil)
	if err != nil {
		return fmt.Sprintf("%q: %v", sent, err)
	}
	if _, err := io.Copy(io.Discard, answer.Body); err != nil || answer.StatusCode != status || !answer.Close {
		return fmt.Sprintf("%q is answered %d, %v, and the connection ends: %v", sent, answer.StatusCode, err, answer.Close)
	}
	if _, err := replies.ReadByte(); err != io.EOF {
		return fmt.Sprintf("%q: the connection ends with %v", sent, err)
	}
	return ""
}

// TestSlowBody sends a body slowly, but each page of it in its time: it is answered. So is one whose bytes come by
// themselves, if all of them come in time.
func TestSlowBody(t *testing.T) {
	f := begin(t, t.TempDir(), "--body-time", "1s")
	request := `{"Request":{` + strings.Repeat(" ", 4<<16) + `}}`
	for _, length := range []int{0, len(request)} {
		reader, writer := io.Pipe()
		go func() {
			for at := 0; at < len(request); at += 1 << 14 {
				end := at + 1<<14
				if end > len(request) {
					end = len(request)
				}
				_, _ = io.WriteString(writer, request[at:end])
				time.Sleep(100 * time.Millisecond)
			}
			writer.Close()
		}()
		asked, err := http.NewRequest(http.MethodPost, f.url("/authorize"), reader)
		if err != nil {
			t.Fatal(err)
		}
		asked.ContentLength = int64(length)
		if length == 0 {
			asked.ContentLength = -1
		}
		answer, err := http.DefaultClient.Do(asked)
		if err != nil {
			t.Fatal(err)
		}
		if status, body := bodyOf(t, answer); status != http.StatusOK {
			t.Errorf("a slow body is answered %d %s", status, body)
		}
	}
}
