package main

import (
	"os"
	"os/exec"
	"path/filepath"
	"strings"
	"testing"
)

// compared compares a folder of policies with a front by tools/lines.py, and gives its status, the lines and what it
// says.
func (f *front) compared(t testing.TB, as, folder string, words ...string) (int, string, string) {
	t.Helper()
	token := filepath.Join(t.TempDir(), "token")
	if err := os.WriteFile(token, []byte(tokenOf(as)+"\n"), 0o600); err != nil {
		t.Fatal(err)
	}
	given := append([]string{"../tools/lines.py", folder, "--front", f.url("/"), "--token", token}, words...)
	ran := exec.Command("python3", given...)
	var lines, said strings.Builder
	ran.Stdout, ran.Stderr = &lines, &said
	_ = ran.Run()
	if ran.ProcessState == nil {
		t.Fatal("python3 didn't run")
	}
	return ran.ProcessState.ExitCode(), lines.String(), said.String()
}

// TestFolder compares the clinic's policies in ALFA with a front: a change is tried, nothing is sent but with --send,
// and then all or nothing; who may not edit, and a document that is refused, is told with its file.
func TestFolder(t *testing.T) {
	if _, err := exec.LookPath("python3"); err != nil {
		t.Skip("there is no python3")
	}
	f := begin(t, t.TempDir(), "--access", accessFile(t, entry("all", "read", "edit"), entry("reads", "read")))
	if got := f.as(t, "all", "POST", "/lines", strings.Join(clinic(t), "\n")); got.status != 200 {
		t.Fatalf("the clinic is answered %+v", got)
	}
	alfa, err := os.ReadFile("../examples/clinic/clinic.alfa")
	if err != nil {
		t.Fatal(err)
	}
	folder := t.TempDir()
	write := func(name, text string) {
		if err := os.WriteFile(filepath.Join(folder, name), []byte(text), 0o600); err != nil {
			t.Fatal(err)
		}
	}
	write("clinic.alfa", strings.Replace(string(alfa), `stringBag("doctor", "nurse")`, `stringBag("doctor")`, 1))
	refused := `{"Policy":{"PolicyId":"x","Version":"one","RuleCombiningAlgId":"y"}}`
	for _, it := range []struct {
		as     string
		words  []string
		status int
		lines  int
		says   string
	}{
		{"all", []string{"--try"}, 0, 2, "dina loses write of record-moss (records care-team)"},
		{"all", []string{"--try"}, 0, 2, "0 gain, 12 lose, 0 have another decision, 0 another reason"},
		{"reads", []string{"--send"}, 1, 2, "the front says 403"},
		{"all", []string{"--send"}, 0, 2, "2 lines were taken: 12 answers changed"},
		{"all", nil, 0, 0, "nothing differs"},
		{"nobody", nil, 2, 0, "/state is answered 401"},
	} {
		status, lines, said := f.compared(t, it.as, folder, it.words...)
		if status != it.status || strings.Count(lines, "\n") != it.lines || !strings.Contains(said, it.says) {
			t.Errorf("as %s with %v the tool ends with %d and says %s: %s", it.as, it.words, status, said, lines)
		}
	}
	write("x.json", strings.Replace(refused, "one", "1", 1))
	status, _, said := f.compared(t, "all", folder, "--send")
	if status != 1 || !strings.Contains(said, "x.json: the front says 422, ") || !strings.Contains(said, "(refused 6 3)") {
		t.Errorf("of a document that is refused the tool says %d %s", status, said)
	}
}
