package main

import (
	"bufio"
	"fmt"
	"net"
	"net/http"
	"strings"
	"testing"
	"time"
)

// stream is a client that sends lines over a connection of its own, and reads replies as they come.
type stream struct {
	conn    net.Conn
	answer  *http.Response
	replies *bufio.Reader
}

// open connects and sends the head of a stream of lines, with fields of its own.
func (f *front) open(path string, fields ...string) (*stream, error) {
	conn, err := net.Dial("tcp", f.address)
	if err != nil {
		return nil, err
	}
	_ = conn.SetDeadline(time.Now().Add(2 * patient))
	head := append([]string{"Host: localhost", "Transfer-Encoding: chunked"}, fields...)
	_, err = fmt.Fprintf(conn, "POST %s HTTP/1.1\r\n%s\r\n\r\n", path, strings.Join(head, "\r\n"))
	return &stream{conn: conn}, err
}

// connect is open, or the end of the test.
func (f *front) connect(path string, fields ...string) *stream {
	f.t.Helper()
	s, err := f.open(path, fields...)
	if err != nil {
		f.t.Fatal(err)
	}
	f.t.Cleanup(func() { s.conn.Close() })
	return s
}

// send sends a line.
func (s *stream) send(l string) error {
	_, err := fmt.Fprintf(s.conn, "%x\r\n%s\n\r\n", len(l)+1, l)
	return err
}

// end says that no line follows.
func (s *stream) end() error {
	_, err := fmt.Fprint(s.conn, "0\r\n\r\n")
	return err
}

// head reads the head of the answer.
func (s *stream) head() error {
	if s.answer != nil {
		return nil
	}
	answer, err := http.ReadResponse(bufio.NewReader(s.conn), nil)
	if err != nil {
		return err
	}
	s.answer, s.replies = answer, bufio.NewReaderSize(answer.Body, 1<<16)
	return nil
}

// receive reads a reply.
func (s *stream) receive() (string, error) {
	if err := s.head(); err != nil {
		return "", err
	}
	reply, err := s.replies.ReadString('\n')
	return strings.TrimSuffix(reply, "\n"), err
}

// ask sends a line and reads its reply, however long others took.
func (s *stream) ask(t testing.TB, l string) string {
	t.Helper()
	_ = s.conn.SetDeadline(time.Now().Add(patient))
	if err := s.send(l); err != nil {
		t.Fatal(err)
	}
	reply, err := s.receive()
	if err != nil {
		t.Fatal(err)
	}
	return reply
}
