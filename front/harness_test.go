package main

import (
	"bufio"
	"bytes"
	"context"
	"encoding/json"
	"fmt"
	"io"
	"net"
	"net/http"
	"os"
	"os/exec"
	"path/filepath"
	"regexp"
	"strconv"
	"strings"
	"sync"
	"syscall"
	"testing"
	"time"

	"review-front/folder"
	"review-front/source"
)

// asFront says that this test program is to be the front, asFake that it is to stand before the program, asSource that
// it is to be review-source.
const (
	asFront  = "REVIEW_FRONT_AS_FRONT"
	asFake   = "REVIEW_FRONT_AS_FAKE"
	asSource = "REVIEW_FRONT_AS_SOURCE"
)

func TestMain(m *testing.M) {
	switch {
	case os.Getenv(asFake) != "":
		os.Exit(fake(os.Getenv(asFake), os.Args[1:]))
	case os.Getenv(asSource) != "":
		os.Exit(source.Run(context.Background(), os.Args[1:], os.Stdout, os.Stderr))
	case os.Getenv(asFront) != "":
		os.Unsetenv(asFront)
		os.Exit(run(os.Args[1:]))
	}
	os.Exit(m.Run())
}

// patient is how long something may take that has to come: machines are busy.
var patient = time.Duration(number("FRONT_PATIENCE", 300)) * time.Second

// theProgram is the program that is served, or ends the test.
func theProgram(t testing.TB) string {
	t.Helper()
	path := os.Getenv("REVIEW_PROGRAM")
	if path == "" {
		t.Skip("REVIEW_PROGRAM names no program")
	}
	return path
}

// front is a front that a test started.
type front struct {
	t       testing.TB
	process *exec.Cmd
	address string
	folder  string
	mutex   sync.Mutex
	said    bytes.Buffer
	ended   chan struct{}
}

// Write takes what the front says.
func (f *front) Write(b []byte) (int, error) {
	f.mutex.Lock()
	defer f.mutex.Unlock()
	return f.said.Write(b)
}

// log is what the front said so far.
func (f *front) log() string {
	f.mutex.Lock()
	defer f.mutex.Unlock()
	return f.said.String()
}

// launch starts a front over a folder, at a port of its own, and doesn't wait.
func launch(t testing.TB, folder string, more ...string) *front {
	t.Helper()
	return launchBy(t, "", folder, more...)
}

// launchBy starts a front by a shell that does something before.
func launchBy(t testing.TB, before, folder string, more ...string) *front {
	t.Helper()
	return started(t, before, folder, append([]string{"--journal", folder}, more...))
}

// started is a front that a shell starts by words, after it did something else if there is that.
func started(t testing.TB, before, folder string, more []string) *front {
	t.Helper()
	f := &front{t: t, folder: folder, ended: make(chan struct{})}
	words := []string{"--program", theProgram(t), "--listen", "127.0.0.1:0", "--lame", "50ms"}
	words = append(words, more...)
	if before == "" {
		f.process = exec.Command(os.Args[0], words...)
	} else {
		f.process = exec.Command("/bin/sh", append([]string{"-c", before + `; exec "$0" "$@"`, os.Args[0]}, words...)...)
	}
	f.process.Env = append(os.Environ(), asFront+"=1")
	f.process.Stderr = f
	if err := f.process.Start(); err != nil {
		t.Fatal(err)
	}
	go func() {
		_ = f.process.Wait()
		close(f.ended)
	}()
	t.Cleanup(func() {
		f.kill()
		if os.Getenv("FRONT_LOG") != "" || t.Failed() {
			t.Logf("the front over %s said:\n%s", folder, shortened(f.log()))
		}
		if strings.Contains(f.log(), "DATA RACE") || strings.Contains(f.log(), "panic") {
			t.Errorf("the front says:\n%s", f.log())
		}
	})
	return f
}

// shown is how much is told of what a front said.
const shown = 20_000

// shortened is as much of the end of a text as is told.
func shortened(text string) string {
	if len(text) <= shown {
		return text
	}
	return "..." + text[len(text)-shown:]
}

// begin starts a front and waits until it answers.
func begin(t testing.TB, folder string, more ...string) *front {
	t.Helper()
	f := launch(t, folder, more...)
	f.await()
	return f
}

var addressOf = regexp.MustCompile(`"address":"([^"]*)"`)

// await waits until a front answers.
func (f *front) await() {
	f.t.Helper()
	for until := time.Now().Add(patient); time.Now().Before(until); time.Sleep(2 * time.Millisecond) {
		select {
		case <-f.ended:
			f.t.Fatalf("the front ended:\n%s", f.log())
		default:
		}
		if f.address == "" {
			if found := addressOf.FindStringSubmatch(f.log()); found != nil {
				f.address = found[1]
			}
			continue
		}
		answer, err := http.Get(f.url("/readyz"))
		if err != nil {
			continue
		}
		answer.Body.Close()
		if answer.StatusCode == http.StatusOK {
			return
		}
	}
	f.t.Fatalf("the front doesn't answer:\n%s", f.trace())
}

// at waits until a front listens, and asks it at an address of this machine then.
func (f *front) at(address string) {
	f.t.Helper()
	eventually(f.t, "the front listens", func() bool { return addressOf.MatchString(f.log()) })
	_, port, err := net.SplitHostPort(addressOf.FindStringSubmatch(f.log())[1])
	if err != nil {
		f.t.Fatal(err)
	}
	f.address = net.JoinHostPort(address, port)
	f.await()
}

// trace ends the front, and is what it said and what it was doing.
func (f *front) trace() string {
	_ = f.process.Process.Signal(syscall.SIGQUIT)
	<-f.ended
	return f.log()
}

func (f *front) url(path string) string { return "http://" + f.address + path }

// kill ends the front at once.
func (f *front) kill() {
	_ = f.process.Process.Kill()
	<-f.ended
}

// stop ends the front as systemd does, and gives its status.
func (f *front) stop() int {
	f.t.Helper()
	if err := f.process.Process.Signal(syscall.SIGTERM); err != nil {
		f.t.Fatal(err)
	}
	return f.status()
}

// status waits for the front's end.
func (f *front) status() int {
	f.t.Helper()
	select {
	case <-f.ended:
	case <-time.After(patient):
		f.t.Fatalf("the front doesn't end:\n%s", f.trace())
	}
	return f.process.ProcessState.ExitCode()
}

var processOf = regexp.MustCompile(`"process":(\d+)`)

// programs are the numbers of the processes of the program that came to their state, in order.
func (f *front) programs() []int {
	var ids []int
	for _, l := range strings.Split(f.log(), "\n") {
		if found := processOf.FindStringSubmatch(l); found != nil && strings.Contains(l, "the state stands") {
			id, _ := strconv.Atoi(found[1])
			ids = append(ids, id)
		}
	}
	return ids
}

// killProgram ends the program that is served, at once.
func (f *front) killProgram() {
	f.t.Helper()
	ids := f.programs()
	if err := syscall.Kill(ids[len(ids)-1], syscall.SIGKILL); err != nil && err != syscall.ESRCH {
		f.t.Fatal(err)
	}
}

// get asks a path, and gives the status and the body.
func (f *front) get(path string) (int, string) {
	f.t.Helper()
	answer, err := http.Get(f.url(path))
	if err != nil {
		f.t.Fatal(err)
	}
	return bodyOf(f.t, answer)
}

// must asks a path that has to be answered by 200.
func (f *front) must(path string) string {
	f.t.Helper()
	status, body := f.get(path)
	if status != http.StatusOK {
		f.t.Fatalf("GET %s: %d %s", path, status, body)
	}
	return body
}

func bodyOf(t testing.TB, answer *http.Response) (int, string) {
	t.Helper()
	defer answer.Body.Close()
	body, err := io.ReadAll(answer.Body)
	if err != nil {
		t.Fatal(err)
	}
	return answer.StatusCode, strings.TrimSuffix(string(body), "\n")
}

// post sends a body to a path.
func (f *front) post(path, body string) (int, string) {
	f.t.Helper()
	answer, err := http.Post(f.url(path), "", strings.NewReader(body))
	if err != nil {
		f.t.Fatal(err)
	}
	return bodyOf(f.t, answer)
}

// lines sends lines, which have to have a reply each.
func (f *front) lines(lines ...string) []string {
	f.t.Helper()
	_, body := f.post("/lines", strings.Join(lines, "\n")+"\n")
	replies := strings.Split(strings.TrimSuffix(body, "\n"), "\n")
	if len(replies) != len(lines) {
		f.t.Fatalf("%d lines have %d replies: %s", len(lines), len(replies), body)
	}
	return replies
}

// accept sends lines that have to be accepted.
func (f *front) accept(lines ...string) {
	f.t.Helper()
	for i, reply := range f.lines(lines...) {
		if !strings.HasPrefix(reply, `{"changes":`) {
			f.t.Fatalf("%s: %s", lines[i], reply)
		}
	}
}

// metric is a number that the front counts.
func (f *front) metric(name string) float64 {
	f.t.Helper()
	text := f.must("/metrics")
	found := regexp.MustCompile(`(?m)^` + regexp.QuoteMeta(name) + ` (\S+)$`).FindStringSubmatch(text)
	if found == nil {
		return 0
	}
	value, err := strconv.ParseFloat(found[1], 64)
	if err != nil {
		f.t.Fatal(err)
	}
	return value
}

// eventually waits until something is so.
func eventually(t testing.TB, what string, is func() bool) {
	t.Helper()
	for until := time.Now().Add(patient); time.Now().Before(until); time.Sleep(10 * time.Millisecond) {
		if is() {
			return
		}
	}
	t.Fatalf("it doesn't come to be so: %s", what)
}

// clinic is the lines of the clinic's edits.
func clinic(t testing.TB) []string {
	t.Helper()
	content, err := os.ReadFile(filepath.Join("..", "examples", "clinic", "clinic.jsonl"))
	if err != nil {
		t.Fatal(err)
	}
	var lines []string
	for _, l := range strings.Split(strings.TrimSpace(string(content)), "\n") {
		if !strings.Contains(l, `{"do":"counts"}`) {
			lines = append(lines, l)
		}
	}
	return lines
}

// twin is a program beside the front, which is told each journalled line once, and then has to be the same.
type twin struct {
	t       testing.TB
	process *exec.Cmd
	input   io.WriteCloser
	output  *bufio.Reader
	told    uint64
}

func newTwin(t testing.TB) *twin {
	t.Helper()
	w := &twin{t: t, process: exec.Command(theProgram(t), "serve")}
	input, err := w.process.StdinPipe()
	if err != nil {
		t.Fatal(err)
	}
	output, err := w.process.StdoutPipe()
	if err != nil {
		t.Fatal(err)
	}
	w.input, w.output = input, bufio.NewReaderSize(output, 1<<20)
	if err := w.process.Start(); err != nil {
		t.Fatal(err)
	}
	t.Cleanup(func() {
		_ = w.input.Close()
		_ = w.process.Wait()
	})
	return w
}

// ask asks a line.
func (w *twin) ask(l string) string {
	w.t.Helper()
	if _, err := io.WriteString(w.input, l+"\n"); err != nil {
		w.t.Fatal(err)
	}
	reply, err := w.output.ReadString('\n')
	if err != nil {
		w.t.Fatal(err)
	}
	return strings.TrimSuffix(reply, "\n")
}

// follow tells the twin what the journals of a folder have more than it was told, and gives the entries by serial.
func (w *twin) follow(path string, all map[uint64]folder.Entry) {
	w.t.Helper()
	err := folder.History(path, w.told, func(e folder.Entry) error {
		if e.Serial != w.told+1 {
			return fmt.Errorf("serial %d follows %d", e.Serial, w.told)
		}
		e.Line = append([]byte(nil), e.Line...)
		all[e.Serial] = e
		w.told = e.Serial
		want := fmt.Sprintf(`{"changes":%d,"serial":%d}`, e.Changes, e.Serial)
		if got := w.ask(string(e.Line)); got != want {
			return fmt.Errorf("%s is answered %s, and by the journal %s", e.Line, got, want)
		}
		return nil
	})
	if err != nil {
		w.t.Fatal(err)
	}
}

// same sees that the front tells the same table and dump as the twin.
func (w *twin) same(f *front) {
	w.t.Helper()
	for path, l := range map[string]string{"/table": `{"do":"table"}`, "/dump": `{"do":"dump"}`} {
		if got, want := f.must(path), w.ask(l); got != want {
			w.t.Fatalf("%s differs from what the journal's lines give:\n%.2000s\n%.2000s", path, got, want)
		}
	}
}

// accepted reads the reply to an edit.
func accepted(reply string) (serial uint64, ok bool) {
	var said struct{ Changes, Serial *uint64 }
	if json.Unmarshal([]byte(reply), &said) != nil || said.Changes == nil || said.Serial == nil {
		return 0, false
	}
	return *said.Serial, true
}

// number is a number that the environment gives, or else another.
func number(name string, otherwise int) int {
	if n, err := strconv.Atoi(os.Getenv(name)); err == nil {
		return n
	}
	return otherwise
}
