package web

import (
	"context"
	"errors"
	"io"
	"net"
	"net/http"
	"os"
	"strings"
	"sync/atomic"
	"testing"
	"time"
)

const (
	soon = 250 * time.Millisecond // the time that something has
	late = 10 * time.Second       // when it is given up
)

// pipe is both ends of a connection, and a request that came over it.
func pipe(t *testing.T) (ours, theirs net.Conn, r *http.Request) {
	t.Helper()
	ours, theirs = net.Pipe()
	t.Cleanup(func() {
		ours.Close()
		theirs.Close()
	})
	r, err := http.NewRequest(http.MethodPost, "/lines", nil)
	if err != nil {
		t.Fatal(err)
	}
	return ours, theirs, r.WithContext(KeepConnection(context.Background(), ours))
}

// TestTimed reads a stream that may say nothing for a while: each byte begins that anew, silence ends it, and so does
// the end of the front.
func TestTimed(t *testing.T) {
	ours, theirs, r := pipe(t)
	stopping := make(chan struct{})
	stream := &timed{from: ours, request: r, idle: soon, stopping: stopping}
	go func() {
		for i := 0; i < 6; i++ {
			time.Sleep(soon / 3)
			_, _ = theirs.Write([]byte("a"))
		}
	}()
	if n, err := io.ReadFull(stream, make([]byte, 6)); err != nil {
		t.Fatalf("a slow stream is read to its byte %d: %v", n, err)
	}
	if _, err := stream.Read(make([]byte, 1)); !errors.Is(err, os.ErrDeadlineExceeded) {
		t.Fatalf("silence ends with %v", err)
	}
	stream.idle = late
	ended := make(chan error)
	go func() {
		_, err := stream.Read(make([]byte, 1))
		ended <- err
	}()
	time.Sleep(soon)
	close(stopping)
	if err := <-ended; err != errStopping {
		t.Errorf("the end of the front is told as %v", err)
	}
	if _, err := stream.Read(make([]byte, 1)); err != errStopping || stream.ended {
		t.Errorf("behind the end of the front a read ends with %v", err)
	}
}

// TestTimedEnd reads a stream to its end, behind which the connection has no time.
func TestTimedEnd(t *testing.T) {
	ours, theirs, r := pipe(t)
	stream := &timed{from: strings.NewReader("a"), request: r, idle: soon, stopping: make(chan struct{})}
	if content, err := io.ReadAll(stream); err != nil || string(content) != "a" || !stream.ended {
		t.Fatalf("the stream is %q, %v", content, err)
	}
	go func() {
		time.Sleep(2 * soon)
		_, _ = theirs.Write([]byte("b"))
	}()
	if _, err := ours.Read(make([]byte, 1)); err != nil {
		t.Errorf("what comes behind the stream is too late: %v", err)
	}
}

// TestPaged reads a body whose time begins again with each page of it, and not with each byte.
func TestPaged(t *testing.T) {
	ours, theirs, _ := pipe(t)
	_ = ours.SetReadDeadline(time.Now().Add(soon))
	body := &paged{from: ours, conn: ours, time: 4 * soon}
	go func() {
		_, _ = theirs.Write(make([]byte, pageBytes))
		time.Sleep(2 * soon)
		_, _ = theirs.Write([]byte("a"))
		time.Sleep(3 * soon)
		_, _ = theirs.Write([]byte("b"))
	}()
	if n, err := io.ReadFull(body, make([]byte, pageBytes+1)); err != nil {
		t.Fatalf("a body of a page is read to its byte %d: %v", n, err)
	}
	if _, err := body.Read(make([]byte, 1)); !errors.Is(err, os.ErrDeadlineExceeded) {
		t.Errorf("a byte begins the time again: %v", err)
	}
}

// plain writes an answer to a connection as it is.
type plain struct {
	http.ResponseWriter
	to net.Conn
}

func (p plain) Write(b []byte) (int, error) { return p.to.Write(b) }

// TestAnswered writes to a client who reads, slowly but in time, and to one who doesn't.
func TestAnswered(t *testing.T) {
	ours, theirs, _ := pipe(t)
	w := &answered{ResponseWriter: plain{to: ours}, conn: ours, time: soon, last: new(atomic.Bool)}
	go func() {
		for i := 0; i < 6; i++ {
			time.Sleep(soon / 3)
			_, _ = theirs.Read(make([]byte, 1))
		}
	}()
	for i := 0; i < 6; i++ {
		if _, err := w.Write([]byte("a")); err != nil {
			t.Fatalf("who reads in time has %d bytes: %v", i, err)
		}
	}
	if _, err := w.Write([]byte("a")); !errors.Is(err, os.ErrDeadlineExceeded) {
		t.Errorf("who doesn't read is written to: %v", err)
	}
}
