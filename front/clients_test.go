package main

import (
	"os"
	"os/exec"
	"path/filepath"
	"strings"
	"testing"
)

// TestClients tries each client that is given to others over a front of its own, where its language is.
func TestClients(t *testing.T) {
	for _, one := range []struct {
		folder, program string
		words           []string
	}{
		{"python", "python3", []string{"try_client.py", "ADDRESS"}},
		{"go", "go", []string{"test", "-count=1", "."}},
		{"js", "node", []string{"try_client.mjs", "ADDRESS"}},
	} {
		one := one
		t.Run(one.folder, func(t *testing.T) {
			if _, err := exec.LookPath(one.program); err != nil {
				t.Skipf("there is no %s", one.program)
			}
			t.Parallel()
			f := begin(t, t.TempDir())
			f.accept(clinic(t)...)
			for at, word := range one.words {
				one.words[at] = strings.Replace(word, "ADDRESS", f.url(""), 1)
			}
			tried := exec.Command(one.program, one.words...)
			tried.Dir = filepath.Join("..", "clients", one.folder)
			tried.Env = append(os.Environ(), "GO111MODULE=on", "GOFLAGS=", "PYTHONDONTWRITEBYTECODE=1", "REVIEW_FRONT="+f.url(""))
			if told, err := tried.CombinedOutput(); err != nil {
				t.Errorf("%v: %s", err, told)
			}
		})
	}
}
