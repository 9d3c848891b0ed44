package main

import (
	"bufio"
	"fmt"
	"io"
	"net"
	"os"
	"os/exec"
	"path/filepath"
	"strings"
	"sync"
	"syscall"
	"testing"
	"time"

	"review-front/jetstream"
)

// natsServer is one server of NATS.
type natsServer struct {
	t       testing.TB
	name    string
	config  string
	address string
	user    string // with whose word it is reached, as user:word@, or nothing
	small   bool   // whether its disk is a small one of its own
	process *exec.Cmd
}

// natsServers starts servers of NATS, which are a cluster where they are several, and gives their addresses as --log
// has them. Where there is none, or the front has no client, it skips the test.
func natsServers(t testing.TB, count int) []*natsServer {
	t.Helper()
	return natsServersWith(t, count, natsServer{}, "")
}

// natsServersWith are such as one, with more in their configuration.
func natsServersWith(t testing.TB, count int, like natsServer, more string) []*natsServer {
	t.Helper()
	theProgram(t)
	if _, err := exec.LookPath("nats-server"); err != nil || !jetstream.Built {
		t.Skip("there is no nats-server, or the front was built without its client")
	}
	ports := freePorts(t, 2*count)
	var routes []string
	for i := 0; i < count; i++ {
		routes = append(routes, "nats://127.0.0.1:"+ports[count+i])
	}
	servers := make([]*natsServer, count)
	for i := range servers {
		stored := t.TempDir()
		name := fmt.Sprint("s", i)
		content := fmt.Sprintf("server_name: %s\nlisten: 127.0.0.1:%s\nmax_payload: 2MB\njetstream { store_dir: %q }\n%s",
			name, ports[i], filepath.Join(stored, "disk"), more)
		if count > 1 {
			content += fmt.Sprintf("cluster { name: review, listen: 127.0.0.1:%s, routes: [%s] }\n",
				ports[count+i], strings.Join(routes, ", "))
		}
		config := filepath.Join(stored, "server.conf")
		if err := os.WriteFile(config, []byte(content), 0o600); err != nil {
			t.Fatal(err)
		}
		one := like
		one.t, one.name, one.config, one.address = t, name, config, "127.0.0.1:"+ports[i]
		servers[i] = &one
		servers[i].start()
		t.Cleanup(servers[i].kill)
	}
	return servers
}

// freePorts are ports at which nobody listens now.
func freePorts(t testing.TB, count int) []string {
	t.Helper()
	var ports []string
	for i := 0; i < count; i++ {
		listener, err := net.Listen("tcp", "127.0.0.1:0")
		if err != nil {
			t.Fatal(err)
		}
		defer listener.Close()
		_, port, _ := net.SplitHostPort(listener.Addr().String())
		ports = append(ports, port)
	}
	return ports
}

// unsharing are words by which a program has file systems of its own.
var unsharing = []string{"--user", "--map-root-user", "--mount"}

// fill has a server's small disk be full, and gives what makes room again.
func (s *natsServer) fill() func() {
	s.t.Helper()
	path := fmt.Sprintf("/proc/%d/root%s/disk/filled", s.process.Process.Pid, filepath.Dir(s.config))
	file, err := os.Create(path)
	if err != nil {
		s.t.Fatal(err)
	}
	defer file.Close()
	for page := make([]byte, 4096); err == nil; {
		_, err = file.Write(page)
	}
	return func() { _ = os.Remove(path) }
}

// start starts a server, which goes on with what it stored.
func (s *natsServer) start() {
	s.t.Helper()
	disk := filepath.Join(filepath.Dir(s.config), "disk")
	if err := os.MkdirAll(disk, 0o700); err != nil {
		s.t.Fatal(err)
	}
	s.process = exec.Command("nats-server", "-c", s.config)
	if s.small {
		const mounted = `mount -t tmpfs -o size=64m none "$0" && exec nats-server -c "$1"`
		s.process = exec.Command("unshare", append(unsharing, "sh", "-c", mounted, disk, s.config)...)
	}
	if err := s.process.Start(); err != nil {
		s.t.Fatal(err)
	}
}

// stop ends it as systemd does.
func (s *natsServer) stop() {
	_ = s.process.Process.Signal(syscall.SIGTERM)
	_ = s.process.Wait()
}

// kill ends it at once.
func (s *natsServer) kill() {
	_ = s.process.Process.Kill()
	_ = s.process.Wait()
}

// logOf are the servers as --log has them.
func logOf(servers []*natsServer) string {
	var all []string
	for _, s := range servers {
		all = append(all, "nats://"+s.user+s.address)
	}
	return strings.Join(all, ",")
}

// replica starts a front over a stream and doesn't wait; its copy stands in a folder.
func replica(t testing.TB, folder, log string, more ...string) *front {
	t.Helper()
	return started(t, "", folder, append([]string{"--log", log, "--stream", "edits", "--copy", folder}, more...))
}

// replicas starts several fronts over a stream that as many servers keep as there are, and waits until they answer.
func replicas(t testing.TB, servers []*natsServer, count int, more ...string) []*front {
	t.Helper()
	more = append([]string{"--stream-replicas", fmt.Sprint(len(servers))}, more...)
	fronts := make([]*front, count)
	for i := range fronts {
		fronts[i] = replica(t, t.TempDir(), logOf(servers), more...)
	}
	for _, f := range fronts {
		f.await()
	}
	return fronts
}

// cut is a way to a server that can be cut.
type cut struct {
	listener net.Listener
	mutex    sync.Mutex
	open     []net.Conn
}

// cuttable is such a way, and its address.
func cuttable(t testing.TB, to string) *cut {
	t.Helper()
	listener, err := net.Listen("tcp", "127.0.0.1:0")
	if err != nil {
		t.Fatal(err)
	}
	c := &cut{listener: listener}
	t.Cleanup(func() {
		listener.Close()
		c.cut()
	})
	go func() {
		for {
			near, err := listener.Accept()
			if err != nil {
				return
			}
			far, err := net.Dial("tcp", to)
			if err != nil {
				near.Close()
				continue
			}
			c.mutex.Lock()
			c.open = append(c.open, near, far)
			c.mutex.Unlock()
			go pass(near, far)
			go pass(far, near)
		}
	}()
	return c
}

// pass passes on what comes.
func pass(to, from net.Conn) {
	_, _ = io.Copy(to, from)
	to.Close()
	from.Close()
}

// cut cuts all connections.
func (c *cut) cut() {
	c.mutex.Lock()
	defer c.mutex.Unlock()
	for _, one := range c.open {
		one.Close()
	}
	c.open = nil
}

// cutting cuts them again and again until it is stopped.
func (c *cut) cutting(every time.Duration, stop <-chan struct{}) (times int) {
	for {
		select {
		case <-time.After(every):
			c.cut()
			times++
		case <-stop:
			return times
		}
	}
}

// ask publishes a message, and gives what is answered, by the protocol of NATS itself.
func (s *natsServer) ask(subject, content string) string {
	s.t.Helper()
	conn, err := net.Dial("tcp", s.address)
	if err != nil {
		s.t.Fatal(err)
	}
	defer conn.Close()
	_ = conn.SetDeadline(time.Now().Add(patient))
	fmt.Fprintf(conn, "CONNECT {\"verbose\":false}\r\nSUB answers 1\r\nPUB %s answers %d\r\n%s\r\n", subject, len(content), content)
	for from := bufio.NewReader(conn); ; {
		l, err := from.ReadString('\n')
		if err != nil {
			s.t.Fatal(err)
		}
		if strings.HasPrefix(l, "MSG answers ") {
			answer, err := from.ReadString('\n')
			if err != nil {
				s.t.Fatal(err)
			}
			return strings.TrimSpace(answer)
		}
	}
}
