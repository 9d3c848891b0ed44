package main

import (
	"os"
	"os/exec"
	"path/filepath"
	"strings"
	"testing"
)

// leaves has somebody leave by tools/leave.py, and gives its status and what it says.
func (f *front) leaves(t testing.TB, as, name string) (int, string) {
	t.Helper()
	token := filepath.Join(t.TempDir(), "token")
	if err := os.WriteFile(token, []byte(tokenOf(as)+"\n"), 0o600); err != nil {
		t.Fatal(err)
	}
	ran := exec.Command("python3", "../tools/leave.py", "--front", f.url("/"), "--token", token, name)
	said, err := ran.CombinedOutput()
	if ran.ProcessState == nil {
		t.Fatal(err)
	}
	return ran.ProcessState.ExitCode(), string(said)
}

// TestLeave has people of the clinic leave: nothing is left of who did, it is told who may not say so, who isn't known,
// and that a front doesn't answer.
func TestLeave(t *testing.T) {
	if _, err := exec.LookPath("python3"); err != nil {
		t.Skip("there is no python3")
	}
	f := begin(t, t.TempDir(), "--access", accessFile(t, entry("all", "read", "edit"), entry("reads", "read")))
	if got := f.as(t, "all", "POST", "/lines", strings.Join(clinic(t), "\n")); got.status != 200 {
		t.Fatalf("the clinic is answered %+v", got)
	}
	for _, it := range []struct {
		as, name string
		status   int
		says     []string
	}{
		{"reads", "ada", 1, []string{`"status":403`}},
		{"nobody", "ada", 1, []string{`"status":401`}},
		{"all", "ada", 0, []string{"ada: dropped: 60 answers went, serial 70\n", " of medical board in module 0: "}},
		{"all", "ada", 1, []string{"ada: was not listed\nada: nothing is known of that name\n"}},
	} {
		status, said := f.leaves(t, it.as, it.name)
		for _, part := range it.says {
			if status != it.status || !strings.Contains(said, part) {
				t.Errorf("as %s %s leaves with %d, and the tool says %s", it.as, it.name, status, said)
			}
		}
	}
	left := f.as(t, "all", "GET", "/attributes?category=AccessSubject&entity=ada", "")
	if left.status != 200 || left.body != `{"attributes":[]}` {
		t.Errorf("of who left stands %+v", left)
	}
	f.kill()
	if status, said := f.leaves(t, "all", "fay"); status != 2 {
		t.Errorf("of a front that is gone the tool says %d %s", status, said)
	}
}
