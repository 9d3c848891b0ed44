//go:build nats

package main

import (
	"bytes"
	"context"
	"errors"
	"net/http"
	"os/exec"
	"strings"
	"sync"
	"syscall"
	"testing"
	"time"

	"review-front/jetstream"
	"review-front/limits"
	"review-front/logs"
	"review-front/replicated"
)

// atOnce is how long an answer may take on a busy machine that doesn't wait for anything.
const atOnce = 8 * time.Second

// TestLogUnled halts two of three servers, and kills them: while none leads, edits get 503 at once, questions are
// answered, and `/readyz` says why; once one leads edits are made.
func TestLogUnled(t *testing.T) {
	servers := natsServers(t, 3)
	fronts := replicas(t, servers, 2)
	fronts[0].accept(clinic(t)...)
	for round, signal := range []syscall.Signal{syscall.SIGSTOP, syscall.SIGKILL} {
		for _, s := range servers[:2] {
			_ = s.process.Process.Signal(signal)
		}
		unled(t, fronts)
		for _, s := range servers[:2] {
			_ = s.process.Process.Signal(syscall.SIGCONT)
			if signal == syscall.SIGKILL {
				s.kill()
				s.start()
			}
		}
		ledAgain(t, fronts, 1000*(round+1))
	}
	newFate().same(t, fronts)
}

// unled sees that it is told that no server leads.
func unled(t *testing.T, fronts []*front) {
	t.Helper()
	for _, f := range fronts {
		eventually(t, "it is told that none leads", func() bool {
			return strings.Contains(f.must("/readyz"), `"status":"ready","edits":"the edit can't be appended: no server leads`)
		})
		for i := 0; i < 3; i++ {
			began := time.Now()
			if status := f.editOnce(t, i); status != http.StatusServiceUnavailable || time.Since(began) > atOnce {
				t.Errorf("while none leads an edit is answered %d, after %v", status, time.Since(began))
			}
		}
		f.must("/table")
	}
}

// ledAgain sees that it is told that one does, and that edits are made, each another one.
func ledAgain(t *testing.T, fronts []*front, number int) {
	t.Helper()
	for _, f := range fronts {
		eventually(t, "edits are made again", func() bool {
			number++
			return f.editOnce(t, number) == http.StatusOK
		})
		if ready := f.must("/readyz"); strings.Contains(ready, `"edits"`) || !strings.Contains(ready, `"leader":"s`) {
			t.Errorf("while one leads it is said %s", ready)
		}
		for _, said := range []string{"no server leads the stream: edits get 503", "a server leads the stream again"} {
			if !strings.Contains(f.log(), said) {
				t.Errorf("the log doesn't say that %s", said)
			}
		}
	}
}

// TestLogUnbrought has servers that nobody may tell to bring what is new, as one that is stopped doesn't: fronts ask
// the one that leads, and each has the edits of both.
func TestLogUnbrought(t *testing.T) {
	const may = `permissions: { publish: { deny: "$JS.API.CONSUMER.>" } }`
	servers := natsServersWith(t, 3, natsServer{user: "front:word@"},
		"authorization { users: [{ user: front, password: word, "+may+" }] }\n")
	fronts := replicas(t, servers, 2)
	fates, editors := newFate(), 0
	fates.during(t, fronts, 2, &editors, func() {
		eventually(t, "edits are made", func() bool { return fates.acknowledged() > 100 })
	})
	fates.same(t, fronts)
}

// TestLogLacks reads a stream behind its end, as where the server that leads has lost edits: it is asked to let another
// one lead.
func TestLogLacks(t *testing.T) {
	servers := natsServers(t, 3)
	var said said
	ctx, cancel := context.WithCancel(context.Background())
	defer cancel()
	log, err := jetstream.Open(ctx, jetstream.Options{
		Servers: logOf(servers), Stream: "edits", Replicas: 3, Limits: limits.Standard,
	}, logs.New(&said))
	if err != nil {
		t.Fatal(err)
	}
	defer log.Close()
	first := ""
	eventually(t, "a server leads", func() bool { first = log.State().Leader; return first != "" })
	ended := make(chan error, 1)
	go func() {
		ended <- log.Read(ctx, 1000, func(replicated.Edit) error { return errors.New("there is an edit") })
	}()
	eventually(t, "another one leads", func() bool { now := log.State().Leader; return now != "" && now != first })
	asked := `is asked to let another one lead","server":"` + first + `","why":"it lacks edits`
	if !strings.Contains(said.String(), asked) {
		t.Errorf("the log says %s", said.String())
	}
	cancel()
	if err := <-ended; !errors.Is(err, context.Canceled) {
		t.Errorf("reading ends with %v", err)
	}
}

// said is what was said, for several goroutines.
type said struct {
	mutex sync.Mutex
	text  bytes.Buffer
}

func (s *said) Write(b []byte) (int, error) {
	s.mutex.Lock()
	defer s.mutex.Unlock()
	return s.text.Write(b)
}

func (s *said) String() string {
	s.mutex.Lock()
	defer s.mutex.Unlock()
	return s.text.String()
}

// TestLogFullServer fills the disk of the server that leads, of three: another one leads soon, edits are made, and
// which one takes none is told by its name.
func TestLogFullServer(t *testing.T) {
	if err := exec.Command("unshare", append(unsharing, "mount", "-t", "tmpfs", "none", "/mnt")...).Run(); err != nil {
		t.Skip("this machine lets nobody have file systems of his own")
	}
	servers := natsServersWith(t, 3, natsServer{small: true}, "")
	fronts := replicas(t, servers, 2)
	_, jet := connected(t, servers)
	fates, editors := newFate(), 0
	var full *natsServer
	eventually(t, "a server leads", func() (ok bool) { full, ok = leads(jet, servers); return ok })
	fates.during(t, fronts, 2, &editors, func() {
		full.fill()
		server, number := `"server":"`+full.name+`"`, 1_000_000
		for _, f := range fronts {
			eventually(t, "it is told whose disk may be full", func() bool {
				return strings.Contains(f.must("/readyz"), server) &&
					strings.Contains(f.log(), server+`,"why":"it answers, and takes no edits: see whether its disk is full"`)
			})
			eventually(t, "edits are made", func() bool {
				number++ // one that wasn't acknowledged may be made all the same
				return f.editOnce(t, number) == http.StatusOK
			})
		}
	})
	full.kill() // as who looks after it does, before it leads
	fates.same(t, fronts)
}
