//go:build nats

package main

import (
	"os"
	"syscall"
	"testing"
	"time"
)

// TestLogServers kills each of three servers in turn while fronts edit, and starts it again; every other time it ends it
// as systemd does.
func TestLogServers(t *testing.T) {
	servers := natsServers(t, 3)
	fronts := replicas(t, servers, number("FRONT_REPLICAS", 3))
	fates, editors := newFate(), 0
	for round := 0; round < number("FRONT_SERVERS", 1); round++ {
		fates.during(t, fronts, 2, &editors, func() {
			time.Sleep(time.Second)
			server := servers[round%len(servers)]
			if round%2 == 0 {
				server.kill()
			} else {
				server.stop()
			}
			time.Sleep(2 * time.Second)
			server.start()
			time.Sleep(2 * time.Second)
		})
	}
	fates.same(t, fronts)
}

// TestLogHalted halts the server that leads until another one does, and lets it go on: where it keeps edits then that no
// other server has, no front takes them. With all, it has what the others have once it began again with nothing.
func TestLogHalted(t *testing.T) {
	servers := natsServers(t, 3)
	fronts := replicas(t, servers, 3)
	_, jet := connected(t, servers)
	fates, editors := newFate(), 0
	for round := 0; round < number("FRONT_SERVERS", 1); round++ {
		var halted *natsServer
		eventually(t, "a server leads", func() (ok bool) { halted, ok = leads(jet, servers); return ok })
		fates.during(t, fronts, 20, &editors, func() {
			time.Sleep(time.Second)
			_ = halted.process.Process.Signal(syscall.SIGSTOP)
			eventually(t, "another one leads", func() bool { now, ok := leads(jet, servers); return ok && now != halted })
			_ = halted.process.Process.Signal(syscall.SIGCONT)
			// What it alone has is brought soon, if at all.
			for before, until := fates.acknowledged(), time.Now().Add(10*time.Second); fates.acknowledged() < before+200 &&
				time.Now().Before(until); time.Sleep(10 * time.Millisecond) {
			}
		})
		fates.same(t, fronts)
		if os.Getenv("FRONT_ALL") == "" {
			continue
		}
		t.Logf("round %d: servers differ at %d sequences", round, len(differing(t, servers)))
		halted.empty()
		eventually(t, "all servers have the same", func() bool { return len(differing(t, servers)) == 0 })
	}
}
