package main

import (
	"bytes"
	"fmt"
	"io"
	"net/http"
	"os"
	"os/exec"
	"regexp"
	"strconv"
	"strings"
	"syscall"
	"time"
)

const address = "127.0.0.1:18080"

// kept is a client that keeps a connection for each of those who post at once.
var kept = &http.Client{Transport: &http.Transport{MaxIdleConnsPerHost: clients}}

// started is a front that runs.
type started struct {
	process *exec.Cmd
	took    time.Duration // until it answered
}

// start starts a front over a folder, and waits until it answers.
func (r run) start(folder string, more ...string) (*started, error) {
	return r.startAt(address, append([]string{"--journal", folder}, more...)...)
}

// startAt starts a front at an address by words, and waits until it answers.
func (r run) startAt(address string, more ...string) (*started, error) {
	words := append([]string{"--program", r.program, "--listen", address}, more...)
	process := exec.Command(r.front, words...)
	process.Stderr = io.Discard
	began := time.Now()
	if err := process.Start(); err != nil {
		return nil, err
	}
	for time.Since(began) < 10*time.Minute {
		answer, err := http.Get("http://" + address + "/readyz")
		if err == nil {
			answer.Body.Close()
			if answer.StatusCode == http.StatusOK {
				return &started{process: process, took: time.Since(began)}, nil
			}
		}
		time.Sleep(2 * time.Millisecond)
	}
	return nil, fmt.Errorf("the front doesn't answer")
}

// stop ends a front: gently, which leaves a snapshot, or at once.
func (s *started) stop(gently bool) error {
	if !gently {
		s.process.Process.Kill()
		s.process.Wait()
		return nil
	}
	if err := s.process.Process.Signal(syscall.SIGTERM); err != nil {
		return err
	}
	return s.process.Wait()
}

// post sends lines and gives the replies.
func post(lines []byte) ([]byte, error) { return postAt(address, lines) }

// postAt sends lines to an address.
func postAt(address string, lines []byte) ([]byte, error) {
	answer, err := kept.Post("http://"+address+"/lines", "application/x-ndjson", bytes.NewReader(lines))
	if err != nil {
		return nil, err
	}
	defer answer.Body.Close()
	return io.ReadAll(answer.Body)
}

// metric is a number that the front counts.
func metric(name string) (float64, error) {
	answer, err := http.Get("http://" + address + "/metrics")
	if err != nil {
		return 0, err
	}
	defer answer.Body.Close()
	text, err := io.ReadAll(answer.Body)
	if err != nil {
		return 0, err
	}
	found := regexp.MustCompile(`(?m)^` + name + ` (\S+)$`).FindSubmatch(text)
	if found == nil {
		return 0, fmt.Errorf("the front doesn't count %s", name)
	}
	return strconv.ParseFloat(string(found[1]), 64)
}

// measure measures what is asked for, and prints it.
func (r run) measure(only string) error {
	folder, err := os.MkdirTemp("", "bench-front-")
	if err != nil {
		return err
	}
	defer os.RemoveAll(folder)
	r.folder = folder
	for _, part := range []struct {
		name string
		call func() error
	}{{"asks", r.asks}, {"edits", r.someEdits}, {"starts", r.starts}, {"snapshots", r.snapshots}, {"beside", r.beside},
		{"log", r.log}, {"proxies", r.proxies}, {"history", r.history}} {
		if strings.Contains(only, part.name) {
			if err := part.call(); err != nil {
				return fmt.Errorf("%s: %w", part.name, err)
			}
		}
	}
	return nil
}

// asks compares asks to the front with asks in the pipe alone.
func (r run) asks() error {
	state, err := os.ReadFile(r.clinic)
	if err != nil {
		return err
	}
	front, err := r.start(r.folder + "/asks")
	if err != nil {
		return err
	}
	defer front.stop(false)
	if _, err := post(state); err != nil {
		return err
	}
	alone, err := pipeAlone(r)
	if err != nil {
		return err
	}
	fmt.Printf("asks, the pipe alone      %8.0f a second\n", alone)
	for _, connections := range []int{1, 32, 256} {
		got, err := front.overHTTP(connections, r.time)
		if err != nil {
			return err
		}
		fmt.Printf("asks, %3d connections     %8.0f a second, %4.2f of the pipe; "+
			"median %v, slowest of a hundred %v, %4.1f times; processor time of the front %v, of the program %v\n",
			connections, got.rate, got.rate/alone, got.median.Round(time.Microsecond), got.slowest.Round(time.Microsecond),
			float64(got.slowest)/float64(got.median), got.front.Round(100*time.Nanosecond), got.program.Round(100*time.Nanosecond))
	}
	return nil
}
