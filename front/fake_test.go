package main

import (
	"bufio"
	"fmt"
	"io"
	"os"
	"os/exec"
	"path/filepath"
	"regexp"
	"strconv"
	"strings"
	"syscall"
	"testing"
	"time"
)

// slowTime is how long a slow edit takes.
const slowTime = 20 * time.Millisecond

// loadTime is how long an edit of a load takes.
const loadTime = 50 * time.Millisecond

// busyTime is longer than a line has in tests of it.
const busyTime = 3 * time.Second

// fake stands before the program, and answers some lines itself: of `memory` each tenth line of a process is answered
// 15 once, of `short` a line that says so as long as its file is there, of `astray` such a line is taken for another
// one, of `dump` a process that is told the lines of a dump tells another one, of `busy` a line that says so takes
// long, of `slow` a while, of `load` each edit, of which replies leave when no more lines are there, of `otherwise` an edit of the rota is refused where requests were asked.
func fake(how string, words []string) int {
	behind := exec.Command(os.Getenv("REVIEW_PROGRAM"), words...)
	behind.Stderr = os.Stderr
	input, err := behind.StdinPipe()
	if err != nil {
		return 2
	}
	output, err := behind.StdoutPipe()
	if err != nil || behind.Start() != nil {
		return 2
	}
	if words[0] == "--version" {
		_, _ = io.Copy(os.Stdout, output)
		return 0
	}
	lines, replies := bufio.NewReaderSize(os.Stdin, 1<<21), bufio.NewReaderSize(output, 1<<21)
	told := bufio.NewWriter(os.Stdout)
	second, asked := false, false
	for count := 1; ; count++ {
		l, err := lines.ReadString('\n')
		if err != nil {
			return 0
		}
		asked = asked || strings.Contains(l, `"do":"ask"`)
		if how == "otherwise" && asked && strings.Contains(l, "rota") {
			fmt.Println(`{"refused":9}`)
			continue
		}
		second = second || strings.Contains(l, `"format"`)
		if how == "memory" && count%10 == 0 || how == "short" && strings.Contains(l, "scarce") && isScarce() {
			fmt.Println(`{"refused":15}`)
			continue
		}
		if how == "untold" && strings.Contains(l, `"notices"`) {
			fmt.Println(`{"refused":15}`)
			continue
		}
		if how == "slow" && strings.Contains(l, "slow") {
			time.Sleep(slowTime)
		}
		if how == "busy" && strings.Contains(l, "busy") {
			work(l)
		}
		if how == "load" {
			workFor(loadOf(l))
		}
		if how == "astray" && strings.Contains(l, "astray") && isScarce() {
			l = strings.Replace(l, `"values":[1]`, `"values":[2]`, 1)
		}
		_, _ = io.WriteString(input, l)
		reply, err := replies.ReadString('\n')
		if err != nil {
			return 3
		}
		if how == "dump" && second && strings.Contains(l, `"dump"`) {
			reply = strings.Replace(reply, `extra-`+"1", `extra-2`, 1)
		}
		_, _ = told.WriteString(reply)
		if how != "load" || lines.Buffered() == 0 {
			_ = told.Flush()
		}
	}
}

// scarce names a file that says that the program has no memory for the next line that asks for it.
const scarce = "REVIEW_FRONT_SCARCE"

// isScarce says whether the file is there, and takes it away.
func isScarce() bool { return os.Remove(os.Getenv(scarce)) == nil }

// loadOf is how long a line of a load takes.
func loadOf(l string) time.Duration {
	switch {
	case strings.Contains(l, "endless"):
		return 10 * busyTime
	case strings.Contains(l, "load"):
		return loadTime
	}
	return 0
}

// work works for long, on a question for very long.
func work(l string) {
	while := busyTime
	if strings.Contains(l, `"can"`) {
		while *= 10
	}
	workFor(while)
}

// workFor works until a processor has worked for it for a while.
func workFor(while time.Duration) {
	for began := worked(); worked()-began < while; {
	}
}

// worked is how long processors have worked for this process.
func worked() time.Duration {
	var used syscall.Rusage
	_ = syscall.Getrusage(syscall.RUSAGE_SELF, &used)
	return time.Duration(used.Utime.Nano() + used.Stime.Nano())
}

// faked is a program that fakes.
func faked(t *testing.T, how string) string {
	t.Helper()
	path := filepath.Join(t.TempDir(), "review")
	script := fmt.Sprintf("#!/bin/sh\n%s=%s exec '%s' \"$@\"\n", asFake, how, os.Args[0])
	if err := os.WriteFile(path, []byte(script), 0o700); err != nil {
		t.Fatal(err)
	}
	return path
}

// TestMemory starts from a journal with a program that is short of memory: lines that are answered 15 are tried
// again.
func TestMemory(t *testing.T) {
	theProgram(t)
	path := t.TempDir()
	f := begin(t, path)
	f.accept(clinic(t)...)
	dump := f.must("/dump")
	f.kill()
	f = begin(t, path, "--program", faked(t, "memory"))
	if !strings.Contains(f.log(), "no memory") {
		t.Errorf("no want of memory is told:\n%s", f.log())
	}
	for try := 0; ; try++ {
		status, body := f.get("/dump")
		if status == 507 && try < 3 {
			continue
		}
		if body != dump {
			t.Errorf("the dump is %d %.300s", status, body)
		}
		break
	}
}

// TestSnapshotRefused makes snapshots of which the second program comes to something else: the journal stays, the old
// snapshot too, and it is told.
func TestSnapshotRefused(t *testing.T) {
	theProgram(t)
	path := t.TempDir()
	f := begin(t, path, "--snapshot-every", "5", "--program", faked(t, "dump"))
	f.accept(`{"do":"person.add","name":"extra-1"}`, `{"do":"action.add","name":"a"}`, `{"do":"resource.add","name":"b"}`)
	f.accept(`{"do":"person.add","name":"c"}`, `{"do":"person.add","name":"d"}`, `{"do":"person.add","name":"e"}`)
	eventually(t, "a snapshot is refused", func() bool { return f.metric(`review_front_snapshots_total{outcome="refused"}`) > 0 })
	table := f.must("/table")
	if status := f.stop(); status != 0 {
		t.Errorf("the front ends with %d:\n%s", status, f.log())
	}
	if files, _ := filepath.Glob(filepath.Join(path, "snapshot-*")); len(files) > 0 {
		t.Errorf("there are the snapshots %v", files)
	}
	if f = begin(t, path); f.must("/table") != table {
		t.Error("the table is another one")
	}
}

// TestDumpTooLong has a row whose line in a dump is longer than a line may be: no snapshot counts, and all is there
// again.
func TestDumpTooLong(t *testing.T) {
	theProgram(t)
	path := t.TempDir()
	f := begin(t, path, "--snapshot-every", "1")
	f.accept(`{"do":"attr.set","category":"Resource","entity":"plan","attribute":"text","type":"string","values":["` +
		strings.Repeat("x", 1048472) + `"]}`)
	eventually(t, "a snapshot is refused", func() bool { return f.metric(`review_front_snapshots_total{outcome="refused"}`) > 0 })
	dump := f.must("/dump")
	f.kill()
	if f = begin(t, path); f.must("/dump") != dump {
		t.Error("the dump is another one")
	}
}

// TestReplayTime edits by lines that take a while: a snapshot is made as soon as they took so long, not by their
// number, and a start behind them replays no more of them.
func TestReplayTime(t *testing.T) {
	theProgram(t)
	path := t.TempDir()
	slow := []string{"--program", faked(t, "slow"), "--replay-time", "300ms", "--snapshot-every", "0"}
	f := begin(t, path, slow...)
	const edits = 60
	for i := 0; i < edits; i++ {
		f.accept(fmt.Sprintf(`{"do":"attr.set","category":"Resource","entity":"slow","attribute":"n","type":"integer","values":[%d]}`, i))
	}
	f.snapshots(2)
	dump := f.must("/dump")
	f.kill()
	f = begin(t, path, slow...)
	if f.must("/dump") != dump {
		t.Error("the dump is another one")
	}
	found := regexp.MustCompile(`"replayed":(\d+)`).FindStringSubmatch(f.log())
	if found == nil {
		t.Fatalf("the front doesn't tell what it replayed:\n%s", f.log())
	}
	// How many are behind a snapshot rests on how long it was under way; without one it would be all.
	if replayed, _ := strconv.Atoi(found[1]); replayed >= edits {
		t.Errorf("%d of %d edits were replayed", replayed, edits)
	}
}
