package main

import (
	"bytes"
	"fmt"
	"os"
	"os/exec"
	"strings"
	"sync"
	"sync/atomic"
	"time"
)

const (
	logServers = 3
	// logClients is over how many connections all fronts together are asked.
	logClients = 32
)

// log measures edits and asks over several fronts of one stream.
func (r run) log() error {
	for _, count := range []int{1, 2, 4} {
		if err := r.logOf(count); err != nil {
			return err
		}
	}
	return nil
}

// logOf measures them over so many fronts.
func (r run) logOf(count int) error {
	folder := fmt.Sprintf("%s/log-%d", r.folder, count)
	servers, stop, err := startServers(folder)
	defer stop()
	if err != nil {
		return err
	}
	var addresses []string
	for i := 0; i < count; i++ {
		at := fmt.Sprintf("127.0.0.1:%d", 18080+i)
		front, err := r.startAt(at, "--log", servers, "--stream", "edits", "--stream-replicas", fmt.Sprint(logServers),
			"--copy", fmt.Sprintf("%s/front-%d", folder, i))
		if err != nil {
			return err
		}
		defer front.stop(false)
		addresses = append(addresses, at)
	}
	state, err := os.ReadFile(r.clinic)
	if err != nil {
		return err
	}
	if _, err := postAt(addresses[0], state); err != nil {
		return err
	}
	edits, err := perSecond(r.time, clients, func(client int, until time.Time) (int, error) {
		return editing(addresses[client%count], client, until)
	})
	if err != nil {
		return err
	}
	asks, err := perSecond(r.time, logClients, func(client int, until time.Time) (int, error) {
		took, err := asking(addresses[client%count], client, until)
		return len(took), err
	})
	fmt.Printf("a log, %d fronts           %8.0f edits a second of %d clients, %8.0f asks over %d connections\n",
		count, edits, clients, asks, logClients)
	return err
}

// startServers starts servers of NATS, and gives their addresses and what ends them.
func startServers(folder string) (string, func(), error) {
	var processes []*exec.Cmd
	stop := func() {
		for _, process := range processes {
			process.Process.Kill()
			process.Wait()
		}
	}
	var addresses, routes []string
	for i := 0; i < logServers; i++ {
		addresses = append(addresses, fmt.Sprintf("nats://127.0.0.1:%d", 18100+i))
		routes = append(routes, fmt.Sprintf("nats://127.0.0.1:%d", 18110+i))
	}
	for i := 0; i < logServers; i++ {
		stored := fmt.Sprintf("%s/server-%d", folder, i)
		if err := os.MkdirAll(stored, 0o700); err != nil {
			return "", stop, err
		}
		config := fmt.Sprintf("server_name: s%d\nlisten: 127.0.0.1:%d\nmax_payload: 2MB\njetstream { store_dir: %q }\n"+
			"cluster { name: bench, listen: 127.0.0.1:%d, routes: [%s] }\n",
			i, 18100+i, stored, 18110+i, strings.Join(routes, ", "))
		if err := os.WriteFile(stored+"/server.conf", []byte(config), 0o600); err != nil {
			return "", stop, err
		}
		process := exec.Command("nats-server", "-c", stored+"/server.conf")
		if err := process.Start(); err != nil {
			return "", stop, err
		}
		processes = append(processes, process)
	}
	return strings.Join(addresses, ","), stop, nil
}

// perSecond has clients do something until a time is over, and gives how much that is a second.
func perSecond(lasting time.Duration, count int, call func(client int, until time.Time) (int, error)) (float64, error) {
	var all sync.WaitGroup
	var sum atomic.Int64
	faults := make(chan error, count)
	until := time.Now().Add(lasting)
	for client := 0; client < count; client++ {
		all.Add(1)
		go func(client int) {
			defer all.Done()
			done, err := call(client, until)
			if err != nil {
				faults <- err
			}
			sum.Add(int64(done))
		}(client)
	}
	all.Wait()
	close(faults)
	return float64(sum.Load()) / lasting.Seconds(), <-faults
}

// editing edits at an address until a time, and says how often.
func editing(address string, client int, until time.Time) (int, error) {
	for count := 0; ; count++ {
		if time.Now().After(until) {
			return count, nil
		}
		reply, err := postAt(address, edit(client, count))
		if err != nil || !bytes.HasPrefix(reply, []byte(`{"changes":`)) {
			return count, fmt.Errorf("an edit is answered %s: %v", reply, err)
		}
	}
}
