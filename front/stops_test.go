package main

import (
	"fmt"
	"io"
	"math/rand"
	"net"
	"net/http"
	"os"
	"strings"
	"sync"
	"syscall"
	"testing"
	"time"

	"review-front/folder"
	"review-front/measure"
	"review-front/web"
)

// stopped is how many clients edit while the front is told to end, half of them by streams.
const stopped = 32

// posting posts edits one by one over a kept connection, until one has no reply. What has its reply is acknowledged.
func (f *front) posting(client int, seed int64, known *acknowledged) {
	kept := &http.Client{Transport: &http.Transport{}}
	defer kept.CloseIdleConnections()
	random := rand.New(rand.NewSource(seed))
	for {
		l := randomEdit(random, client)
		// A body that can't be read twice isn't sent twice.
		request, err := http.NewRequest(http.MethodPost, f.url("/lines"), io.NopCloser(strings.NewReader(l)))
		if err != nil {
			f.t.Error(err)
			return
		}
		request.ContentLength = int64(len(l))
		answer, err := kept.Do(request)
		if err != nil {
			return
		}
		body, err := io.ReadAll(answer.Body)
		answer.Body.Close()
		if err != nil {
			return
		}
		if serial, ok := accepted(string(body)); ok {
			known.add(f.t, serial, l)
		}
	}
}

// TestStops tells the front to end while clients edit, by streams and over connections that they keep: each edit that
// was kept has its reply.
func TestStops(t *testing.T) {
	path := t.TempDir()
	known := &acknowledged{edits: map[uint64]string{}}
	journal := map[uint64]folder.Entry{}
	w := newTwin(t)
	random := rand.New(rand.NewSource(3))
	for round := 0; round < number("FRONT_STOPS", 4); round++ {
		f := begin(t, path, "--lame", "100ms")
		if round == 0 {
			for i, l := range clinic(t) {
				f.accept(l)
				known.add(t, uint64(i+1), l)
			}
		}
		var all sync.WaitGroup
		for client := 0; client < stopped; client++ {
			all.Add(1)
			go func(client int) {
				defer all.Done()
				if seed := int64(round*stopped + client); client%2 == 0 {
					editing(t, f, client, seed, known, nil)
				} else {
					f.posting(client, seed, known)
				}
			}(client)
		}
		time.Sleep(time.Duration(random.Intn(250)) * time.Millisecond)
		if status := f.stop(); status != 0 {
			t.Fatalf("the front ends with %d:\n%s", status, f.log())
		}
		all.Wait()
		w.follow(path, journal)
		known.in(t, journal)
		if len(journal) != len(known.edits) {
			t.Fatalf("round %d: %d edits were kept, and %d have their reply", round, len(journal), len(known.edits))
		}
	}
	t.Logf("%d edits are in the journal, and have their reply", len(journal))
}

// TestClosedBefore closes connections at the moment at which a request was read and nobody has begun to answer it, as
// the end of the front may: what can't be answered isn't done.
func TestClosedBefore(t *testing.T) {
	k := kept(t, (*os.File).Sync)
	site := web.New(web.Options{
		Keeper: k, Meter: measure.New(), BodyTime: patient, StreamIdle: patient, WriteTime: patient,
		Hosts: web.NewHosts([]string{"localhost"}, "", nil),
	})
	server := &http.Server{
		Handler: site, ConnContext: web.KeepConnection, ReadTimeout: patient,
		ConnState: func(c net.Conn, state http.ConnState) {
			if state == http.StateActive {
				c.Close()
			}
		},
	}
	listener, err := net.Listen("tcp", "127.0.0.1:0")
	if err != nil {
		t.Fatal(err)
	}
	go func() { _ = server.Serve(listener) }()
	defer server.Close()
	const l = `{"do":"person.add","name":"ann"}` + "\n"
	for _, sent := range []string{
		fmt.Sprintf("POST /lines HTTP/1.1\r\nHost: localhost\r\nContent-Length: %d\r\n\r\n%s", len(l), l),
		fmt.Sprintf("POST /lines HTTP/1.1\r\nHost: localhost\r\nTransfer-Encoding: chunked\r\n\r\n%x\r\n%s\r\n0\r\n\r\n", len(l), l),
		"POST /commands/person.add HTTP/1.1\r\nHost: localhost\r\nContent-Length: 14\r\n\r\n{\"name\":\"ann\"}",
	} {
		conn, err := net.Dial("tcp", listener.Addr().String())
		if err != nil {
			t.Fatal(err)
		}
		fmt.Fprint(conn, sent)
		if all, _ := io.ReadAll(conn); len(all) > 0 {
			t.Errorf("%s is answered %s", sent, all)
		}
		conn.Close()
		time.Sleep(100 * time.Millisecond)
		if k.Serial() != 0 {
			t.Fatalf("%s was done", sent)
		}
	}
}

// TestReadsLate tells the front to end while a client sends lines and reads nothing: when he has sent all he finds the
// replies to all edits that were kept.
func TestReadsLate(t *testing.T) {
	path := t.TempDir()
	f := begin(t, path, "--lame", "100ms")
	s := f.connect("/lines")
	sent := 0
	send := func() error {
		sent++
		return s.send(fmt.Sprintf(`{"do":"person.add","name":"extra-%d"}`, sent))
	}
	for sent < 20 {
		if err := send(); err != nil {
			t.Fatal(err)
		}
	}
	eventually(t, "edits are kept", func() bool { return f.metric("review_front_edits_total") == 20 })
	if err := f.process.Process.Signal(syscall.SIGTERM); err != nil {
		t.Fatal(err)
	}
	for began := time.Now(); time.Since(began) < 700*time.Millisecond; time.Sleep(10 * time.Millisecond) {
		if err := send(); err != nil {
			t.Fatalf("line %d can't be sent: %v", sent, err)
		}
	}
	known := 0
	for {
		reply, err := s.receive()
		if err == io.EOF {
			break
		}
		if err != nil {
			t.Fatalf("the replies end with %v after %d", err, known)
		}
		if _, ok := accepted(reply); ok {
			known++
		}
	}
	f.status()
	journal := map[uint64]folder.Entry{}
	newTwin(t).follow(path, journal)
	if known != len(journal) || known == sent {
		t.Errorf("of %d lines %d edits were kept, and %d have their reply", sent, len(journal), known)
	}
}

// TestLameDuck tells the front to end: it isn't ready any more, and still answers who comes by a new connection; each
// answer is the last of its connection. Then nobody is answered any more.
func TestLameDuck(t *testing.T) {
	f := begin(t, t.TempDir(), "--lame", "2s")
	f.accept(clinic(t)...)
	ended := make(chan int)
	go func() { ended <- f.stop() }()
	eventually(t, "the front isn't ready", func() bool {
		answer, err := http.Get(f.url("/readyz"))
		if err != nil {
			t.Fatal(err)
		}
		status, _ := bodyOf(t, answer)
		return status == http.StatusServiceUnavailable && answer.Close
	})
	f.accept(`{"do":"person.add","name":"extra"}`)
	kept, err := net.Dial("tcp", f.address)
	if err != nil {
		t.Fatal(err)
	}
	defer kept.Close()
	_ = kept.SetDeadline(time.Now().Add(patient))
	fmt.Fprint(kept, "GET /healthz HTTP/1.1\r\nHost: localhost\r\n\r\n")
	if all, err := io.ReadAll(kept); err != nil || !strings.Contains(string(all), "Connection: close") {
		t.Errorf("a connection is answered %s, %v", all, err)
	}
	if status := <-ended; status != 0 {
		t.Fatalf("the front ends with %d:\n%s", status, f.log())
	}
	if _, err := net.Dial("tcp", f.address); err == nil {
		t.Error("who comes after the end is heard")
	}
}
