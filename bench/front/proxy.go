package main

import (
	"bufio"
	"fmt"
	"net"
	"os"
	"os/exec"
	"path/filepath"
	"sort"
	"strings"
	"sync"
	"time"
)

const (
	// passing is where nginx asks the front before it passes on, and alone where it doesn't.
	passing = "127.0.0.1:18000"
	alone   = "127.0.0.1:18001"
	// behind is what both pass on to.
	behind = "127.0.0.1:19000"
	// proxied is how many connections nginx has from clients.
	proxied = 32
)

// unasked is what of nginx's asks nobody: the server behind, and one that passes on to it.
const unasked = `daemon off; pid FOLDER/pid; error_log stderr; worker_processes 2; user root;
events {}
http {
	access_log off; keepalive_requests 1000000000;
	client_body_temp_path FOLDER/b; proxy_temp_path FOLDER/p; fastcgi_temp_path FOLDER/f;
	uwsgi_temp_path FOLDER/u; scgi_temp_path FOLDER/s;
	server { listen ` + behind + `; location / { return 200 "ok"; } }
	server { listen ` + alone + `; location / { proxy_pass http://` + behind + `; } }
`

// proxies measures what a request through nginx takes, alone and where it asks the front, with and without askers.
func (r run) proxies() error {
	example, err := os.ReadFile("examples/proxies/nginx.conf")
	if err != nil {
		return err
	}
	folder := filepath.Join(r.folder, "nginx")
	if err := os.MkdirAll(folder, 0o700); err != nil {
		return err
	}
	config := strings.NewReplacer("FOLDER", folder, "127.0.0.1:8000", passing, "127.0.0.1:8080", address,
		"127.0.0.1:9000", behind, "$remote_user", "ada", "auth_basic ", "#").Replace(unasked + string(example) + "}\n")
	file := filepath.Join(folder, "nginx.conf")
	if err := os.WriteFile(file, []byte(config), 0o600); err != nil {
		return err
	}
	nginx := exec.Command("/usr/sbin/nginx", "-p", folder, "-c", file)
	nginx.Stderr = os.Stderr
	if err := nginx.Start(); err != nil {
		return err
	}
	defer func() {
		nginx.Process.Signal(os.Interrupt)
		nginx.Wait()
	}()
	if err := awaited(alone); err != nil {
		return err
	}
	if err := r.passed("nginx alone", alone); err != nil {
		return err
	}
	for _, askers := range []string{"0", "2"} {
		if err := r.passedBy(askers); err != nil {
			return err
		}
	}
	return nil
}

// awaited waits until somebody listens at an address.
func awaited(address string) error {
	conn, err := net.Dial("tcp", address)
	for began := time.Now(); err != nil && time.Since(began) < time.Minute; conn, err = net.Dial("tcp", address) {
		time.Sleep(10 * time.Millisecond)
	}
	if err != nil {
		return err
	}
	return conn.Close()
}

// passedBy measures with so many askers.
func (r run) passedBy(askers string) error {
	state, err := os.ReadFile(r.clinic)
	if err != nil {
		return err
	}
	folder := filepath.Join(r.folder, "checked-"+askers)
	s, err := r.start(folder, "--check", "examples/proxies/check.json", "--askers", askers)
	if err != nil {
		return err
	}
	defer s.stop(false)
	if _, err := post(state); err != nil {
		return err
	}
	return r.passed("nginx that asks, "+askers+" askers", passing)
}

// passed sends requests over connections for a while, each of which waits for its answer, and prints how long they
// took.
func (r run) passed(what, address string) error {
	var all sync.WaitGroup
	times := make([][]time.Duration, proxied)
	faults := make(chan error, proxied)
	began := time.Now()
	for i := 0; i < proxied; i++ {
		all.Add(1)
		go func(i int) {
			defer all.Done()
			taken, err := through(address, began.Add(r.time))
			times[i] = taken
			if err != nil {
				faults <- err
			}
		}(i)
	}
	all.Wait()
	took := time.Since(began)
	close(faults)
	if err := <-faults; err != nil {
		return err
	}
	var every []time.Duration
	for _, taken := range times {
		every = append(every, taken...)
	}
	if len(every) == 0 {
		return fmt.Errorf("%s: nothing was answered in %v", what, r.time)
	}
	sort.Slice(every, func(i, j int) bool { return every[i] < every[j] })
	fmt.Printf("%s: %.0f requests a second over %d connections, median %v, of a hundred the slowest %v\n", what,
		float64(len(every))/took.Seconds(), proxied, every[len(every)/2], every[len(every)*99/100])
	return nil
}

// through sends requests over one connection until a time.
func through(address string, until time.Time) ([]time.Duration, error) {
	conn, err := net.Dial("tcp", address)
	if err != nil {
		return nil, err
	}
	defer conn.Close()
	from := bufio.NewReaderSize(conn, 1<<14)
	var taken []time.Duration
	for time.Now().Before(until) {
		began := time.Now()
		if _, err := conn.Write([]byte("GET /records/moss HTTP/1.1\r\nHost: app.example\r\n\r\n")); err != nil {
			return nil, err
		}
		if err := answer(from); err != nil {
			return nil, err
		}
		taken = append(taken, time.Since(began))
	}
	return taken, nil
}
