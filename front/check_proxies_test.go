package main

import (
	"bufio"
	"fmt"
	"io"
	"net"
	"net/http"
	"os"
	"os/exec"
	"path/filepath"
	"strings"
	"sync"
	"testing"
	"time"
)

// upstream is a server behind a proxy, which keeps what it saw, as it came.
type upstream struct {
	listener net.Listener
	mutex    sync.Mutex
	seen     map[string][]string // the lines of each head, by its field X-Trick
}

func newUpstream(t testing.TB) *upstream {
	t.Helper()
	listener, err := net.Listen("tcp", "127.0.0.1:0")
	if err != nil {
		t.Fatal(err)
	}
	u := &upstream{listener: listener, seen: map[string][]string{}}
	t.Cleanup(func() { listener.Close() })
	go func() {
		for {
			conn, err := listener.Accept()
			if err != nil {
				return
			}
			go u.answer(conn)
		}
	}()
	return u
}

// answer keeps a head, and answers.
func (u *upstream) answer(conn net.Conn) {
	defer conn.Close()
	from := bufio.NewReader(conn)
	var lines []string
	trick := ""
	for {
		l, err := from.ReadString('\n')
		if err != nil {
			return
		}
		if l = strings.TrimRight(l, "\r\n"); l == "" {
			break
		}
		name, value, _ := strings.Cut(l, ":")
		if strings.EqualFold(name, "X-Trick") {
			trick = strings.TrimSpace(value)
		}
		lines = append(lines, l)
	}
	u.mutex.Lock()
	u.seen[trick] = lines
	u.mutex.Unlock()
	fmt.Fprint(conn, "HTTP/1.1 200 OK\r\nContent-Length: 2\r\nConnection: close\r\n\r\nok")
}

// saw is the head that came with a trick, or nothing.
func (u *upstream) saw(trick string) []string {
	u.mutex.Lock()
	defer u.mutex.Unlock()
	return u.seen[trick]
}

// freePort is a port that nobody listens at.
func freePort(t testing.TB) string {
	t.Helper()
	listener, err := net.Listen("tcp", "127.0.0.1:0")
	if err != nil {
		t.Fatal(err)
	}
	defer listener.Close()
	_, port, _ := net.SplitHostPort(listener.Addr().String())
	return port
}

// proxy is a real one that stands before an upstream and asks a front.
type proxy struct {
	t       testing.TB
	address string
}

// begun starts a proxy by words, in a folder, and waits until it listens.
func begunProxy(t testing.TB, folder, port string, words ...string) *proxy {
	t.Helper()
	process := exec.Command(words[0], words[1:]...)
	process.Env = append(os.Environ(), "HOME="+folder, "XDG_DATA_HOME="+folder, "XDG_CONFIG_HOME="+folder)
	log, err := os.Create(filepath.Join(folder, "log"))
	if err != nil {
		t.Fatal(err)
	}
	process.Stdout, process.Stderr = log, log
	if err := process.Start(); err != nil {
		t.Fatal(err)
	}
	t.Cleanup(func() {
		_ = process.Process.Kill()
		_ = process.Wait()
		log.Close()
		if said, _ := os.ReadFile(log.Name()); t.Failed() {
			t.Logf("%s said:\n%s", words[0], shortened(string(said)))
		}
	})
	p := &proxy{t: t, address: "127.0.0.1:" + port}
	eventually(t, words[0]+" listens", func() bool {
		conn, err := net.Dial("tcp", p.address)
		if err == nil {
			conn.Close()
		}
		return err == nil
	})
	return p
}

// program is where a proxy of Debian's is, or ends the test.
func proxyProgram(t testing.TB, name string) string {
	t.Helper()
	for _, folder := range []string{"/usr/sbin", "/usr/bin"} {
		if _, err := os.Stat(filepath.Join(folder, name)); err == nil {
			return filepath.Join(folder, name)
		}
	}
	t.Skip("there is no " + name)
	return ""
}

// written writes a file of a proxy, with what is in place of words in capitals.
func writtenFor(t testing.TB, folder, name, content string, pairs ...string) string {
	t.Helper()
	path := filepath.Join(folder, name)
	content = strings.NewReplacer(pairs...).Replace(content)
	if err := os.WriteFile(path, []byte(content), 0o600); err != nil {
		t.Fatal(err)
	}
	return path
}

// byNginx has nginx ask a front, by auth_request.
func byNginx(t testing.TB, front, behind string) *proxy {
	t.Helper()
	program, folder, port := proxyProgram(t, "nginx"), t.TempDir(), freePort(t)
	config, err := os.ReadFile(filepath.Join("..", "examples", "proxies", "nginx.conf"))
	if err != nil {
		t.Fatal(err)
	}
	main := `daemon off; master_process off; pid FOLDER/pid; error_log stderr;
events {}
http {
	access_log off;
	client_body_temp_path FOLDER/b; proxy_temp_path FOLDER/p; fastcgi_temp_path FOLDER/f;
	uwsgi_temp_path FOLDER/u; scgi_temp_path FOLDER/s;
` + string(config) + "}\n"
	path := writtenFor(t, folder, "nginx.conf", main, "FOLDER", folder, "127.0.0.1:8000", "127.0.0.1:"+port,
		"127.0.0.1:8080", front, "127.0.0.1:9000", behind, "$remote_user", "ann", "auth_basic ", "#")
	return begunProxy(t, folder, port, program, "-p", folder, "-c", path)
}

// byCaddy has Caddy ask a front, by forward_auth.
func byCaddy(t testing.TB, front, behind string) *proxy {
	t.Helper()
	program, folder, port := proxyProgram(t, "caddy"), t.TempDir(), freePort(t)
	config, err := os.ReadFile(filepath.Join("..", "examples", "proxies", "Caddyfile"))
	if err != nil {
		t.Fatal(err)
	}
	path := writtenFor(t, folder, "Caddyfile", "{\n\tadmin off\n\tauto_https off\n}\n"+string(config), ":8000", ":"+port,
		"127.0.0.1:8080", front, "127.0.0.1:9000", behind, "{http.auth.user.id}", "ann")
	return begunProxy(t, folder, port, program, "run", "--adapter", "caddyfile", "--config", path)
}

// byHAProxy has HAProxy ask a front, by its Lua.
func byHAProxy(t testing.TB, front, behind string) *proxy {
	t.Helper()
	program, folder, port := proxyProgram(t, "haproxy"), t.TempDir(), freePort(t)
	pairs := []string{
		"lua-load check.lua", "lua-load " + filepath.Join(folder, "check.lua"), "127.0.0.1:8000", "127.0.0.1:" + port,
		"127.0.0.1:8080", front, "127.0.0.1:9000", behind, "%[http_auth_user]", "ann", "http-request auth ", "# ",
	}
	for _, name := range []string{"check.lua", "haproxy.cfg"} {
		content, err := os.ReadFile(filepath.Join("..", "examples", "proxies", name))
		if err != nil {
			t.Fatal(err)
		}
		writtenFor(t, folder, name, string(content), pairs...)
	}
	return begunProxy(t, folder, port, program, "-db", "-f", filepath.Join(folder, "haproxy.cfg"))
}

// send sends a head as it is written, and gives the status, or 0 where there is none, and the head of the answer.
func (p *proxy) send(method, target string, fields ...string) (int, http.Header) {
	p.t.Helper()
	conn, err := net.Dial("tcp", p.address)
	if err != nil {
		p.t.Fatal(err)
	}
	defer conn.Close()
	_ = conn.SetDeadline(time.Now().Add(patient))
	head := method + " " + target + " HTTP/1.1\r\nHost: app.example\r\nConnection: close\r\n"
	for i := 0; i+1 < len(fields); i += 2 {
		head += fields[i] + ": " + fields[i+1] + "\r\n"
	}
	_, _ = io.WriteString(conn, head+"\r\n")
	answer, err := http.ReadResponse(bufio.NewReader(conn), &http.Request{Method: method})
	if err != nil {
		return 0, nil
	}
	answer.Body.Close()
	return answer.StatusCode, answer.Header
}

// TestProxies asks through real proxies: what may be is passed on, what mayn't isn't, and obligations reach the server
// behind. While the front is away nothing is passed on.
func TestProxies(t *testing.T) {
	for name, begun := range map[string]func(t testing.TB, front, behind string) *proxy{
		"nginx": byNginx, "caddy": byCaddy, "haproxy": byHAProxy,
	} {
		t.Run(name, func(t *testing.T) {
			f, u := begin(t, t.TempDir(), "--check", checkFile(t, checked)), newUpstream(t)
			f.accept(checkedState()...)
			p := begun(t, f.address, u.listener.Addr().String())
			p.plain(u)
			p.tricked(u, tricks())
			f.kill()
			status, _ := p.send("GET", "/public/a", "X-Trick", "unanswered")
			if saw := u.saw("unanswered"); status == http.StatusOK || len(saw) > 0 {
				t.Errorf("while the front is away %q came through, by %d", saw, status)
			}
		})
	}
}

// plain sends what nobody would send otherwise.
func (p *proxy) plain(u *upstream) {
	p.t.Helper()
	for i, one := range []struct {
		method, target string
		status         int
		level          string
	}{
		{"GET", "/public/a", 200, ""}, {"GET", "/public/a?b=c%2fd", 200, ""}, {"HEAD", "/accounts/1", 200, ""},
		{"GET", "/public/b%C3%A4", 200, ""}, {"GET", "/told/7", 200, "3"},
		{"GET", "/shredded/7", 403, ""}, {"GET", "/accounts/2", 403, ""}, {"POST", "/public/a", 403, ""},
		{"GET", "/nothing", 403, ""},
	} {
		trick := fmt.Sprint("plain ", i)
		status, head := p.send(one.method, one.target, "X-Trick", trick, "Content-Length", "0", "Privacy-Record", "0")
		saw := u.saw(trick)
		if status != one.status || (len(saw) > 0) != (status == 200) {
			p.t.Errorf("%s %s is answered %d %v, and behind it came %q", one.method, one.target, status, head, saw)
			continue
		}
		if len(saw) > 0 && !strings.HasPrefix(saw[0], one.method+" "+one.target+" HTTP/1.") {
			p.t.Errorf("%s %s is passed on as %s", one.method, one.target, saw[0])
		}
		if len(saw) > 0 && fieldOf(saw, "Privacy-Record") != one.level {
			p.t.Errorf("%s is passed on with %q", one.target, saw)
		}
	}
}

// fieldOf has the values of a field in a head, with commas between.
func fieldOf(lines []string, field string) string {
	var values []string
	for _, l := range lines {
		if name, value, ok := strings.Cut(l, ":"); ok && strings.EqualFold(strings.ReplaceAll(name, "_", "-"), field) {
			values = append(values, strings.TrimSpace(value))
		}
	}
	return strings.Join(values, ",")
}
