package program

import (
	"os"
	"path/filepath"
	"syscall"
	"testing"
	"time"
)

// script starts a script as the program.
func script(t *testing.T, text string) *Program {
	t.Helper()
	path := filepath.Join(t.TempDir(), "program")
	if err := os.WriteFile(path, []byte("#!/bin/sh\n"+text+"\n"), 0o700); err != nil {
		t.Fatal(err)
	}
	p, err := Command{Path: path, Faults: os.Stderr}.Start()
	if err != nil {
		t.Fatal(err)
	}
	t.Cleanup(p.Discard)
	return p
}

// becomes waits until what processors do for a program is as it is to be.
func becomes(t *testing.T, p *Program, what string, is func(Work) bool) {
	t.Helper()
	for until := time.Now().Add(time.Minute); !is(p.Work()); time.Sleep(time.Millisecond) {
		if time.Now().After(until) {
			t.Fatalf("it doesn't come to be so: %s", what)
		}
	}
}

// TestWork looks at a program that works by another one which it started, is stopped, goes on, and waits.
func TestWork(t *testing.T) {
	p := script(t, "sh -c 'while :; do :; done' & read line; kill $!; read line")
	busy := func(w Work) bool { return w.Runs && w.Took > 0 }
	becomes(t, p, "it works", busy)
	if err := syscall.Kill(-p.ID(), syscall.SIGSTOP); err != nil {
		t.Fatal(err)
	}
	becomes(t, p, "it is stopped", func(w Work) bool { return !w.Runs })
	took := p.Work().Took
	time.Sleep(50 * time.Millisecond)
	if w := p.Work(); w.Runs || w.Took != took {
		t.Errorf("what is stopped works: %+v, and %v before", w, took)
	}
	if err := syscall.Kill(-p.ID(), syscall.SIGCONT); err != nil {
		t.Fatal(err)
	}
	becomes(t, p, "it goes on", func(w Work) bool { return w.Runs && w.Took > took })
	if err := p.Send([]byte("end")); err == nil {
		_ = p.Flush()
	}
	becomes(t, p, "it waits", func(w Work) bool { return !w.Runs })
}
