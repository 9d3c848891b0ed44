package main

import (
	"os"
	"os/exec"
	"path/filepath"
	"regexp"
	"strings"
	"testing"
	"time"
)

// section is a part of the page on serving, from its heading on to the next one of the same depth.
func section(t testing.TB, heading string) string {
	t.Helper()
	content, err := os.ReadFile(filepath.Join("..", "docs", "SERVING.md"))
	if err != nil {
		t.Fatal(err)
	}
	_, part, found := strings.Cut(string(content), "\n## "+heading+"\n")
	if !found {
		t.Fatalf("the page has no %s", heading)
	}
	part, _, _ = strings.Cut(part, "\n## ")
	return part
}

// shell runs what pages show, in a folder from which the repository's files are found as from its top.
type shell struct {
	t      testing.TB
	folder string
	front  *front // that which is asked
}

// newShell has the clinic of the page served, with ivan.
func newShell(t testing.TB) *shell {
	t.Helper()
	s := &shell{t: t, folder: t.TempDir()}
	top := filepath.Join(ownFolder(t), "..")
	for from, to := range map[string]string{filepath.Join(top, "examples"): "examples"} {
		if err := os.Symlink(from, filepath.Join(s.folder, to)); err != nil {
			t.Fatal(err)
		}
	}
	if err := os.MkdirAll(filepath.Join(s.folder, "front", "out"), 0o700); err != nil {
		t.Fatal(err)
	}
	own, err := filepath.Abs(os.Args[0])
	if err != nil {
		t.Fatal(err)
	}
	script := "#!/bin/sh\n" + asFront + "=1 exec " + own + ` "$@"` + "\n"
	if err := os.WriteFile(filepath.Join(s.folder, "front", "out", "review-front"), []byte(script), 0o700); err != nil {
		t.Fatal(err)
	}
	s.front = begin(t, filepath.Join(s.folder, "clinic"), "--patience", "10m") // also on a busy machine
	s.front.accept(clinic(t)...)
	s.front.accept(`{"do":"person.add","name":"ivan"}`)
	return s
}

// shownDay is a day in what the page asks, in place of which the tests have one of a week ago.
const shownDay = "2026-11-23"

var leading = regexp.MustCompile(`(?m)^\d+ `)

// try runs the commands of a block, and compares what each prints with what is below it: up to two dots, and but for
// numbers at the beginning of a line, which rest on how often the front was started.
func (s *shell) try(block string) {
	s.t.Helper()
	for _, part := range strings.Split("\n"+block, "\n$ ")[1:] {
		command, want, _ := strings.Cut(part, "\n")
		if strings.HasSuffix(command, " &") {
			s.start(strings.Fields(strings.TrimSuffix(command, " &")))
			continue
		}
		for _, needed := range []string{"curl", "jq", "openssl"} {
			if _, err := exec.LookPath(needed); err != nil && strings.Contains(command, needed+" ") {
				s.t.Skip("there is no " + needed)
			}
		}
		day := time.Now().UTC().AddDate(0, 0, -7).Format("2006-01-02")
		run := exec.Command("sh", "-c", strings.NewReplacer(shownAddress, s.front.address, shownDay, day).Replace(command))
		run.Dir = s.folder
		told, err := run.CombinedOutput()
		if err != nil || !prints(strings.TrimSpace(string(told)), want) {
			s.t.Errorf("%s prints %s, %v, and not %s", command, told, err, want)
		}
	}
}

// prints says whether what is told is what is shown.
func prints(told, shown string) bool {
	told, shown = leading.ReplaceAllString(told, "N "), leading.ReplaceAllString(shown, "N ")
	toldLines, shownLines := strings.Split(told, "\n"), strings.Split(shown, "\n")
	for i, one := range shownLines {
		begins := strings.TrimSuffix(one, " ..")
		if i >= len(toldLines) || one == begins && toldLines[i] != one || !strings.HasPrefix(toldLines[i], begins) {
			return false
		}
	}
	return len(toldLines) == len(shownLines)
}

// start starts another front over the same folder, by the words of the page.
func (s *shell) start(words []string) {
	s.t.Helper()
	s.front.stop()
	words = words[1:]
	for i := range words {
		switch {
		case i == 0 || strings.HasPrefix(words[i], "--"):
		case words[i-1] == "--program":
			words[i] = theProgram(s.t)
		default:
			words[i] = filepath.Join(s.folder, words[i])
		}
	}
	s.front = started(s.t, "", filepath.Join(s.folder, "clinic"), words)
	s.front.await()
}

// TestServingPage does what the page shows of what edits changed, of earlier states and of tampering, in its order.
func TestServingPage(t *testing.T) {
	s := newShell(t)
	count := 0
	for _, heading := range []string{"What each edit changed", "A journal that shows tampering"} {
		for _, block := range blocks(section(t, heading)) {
			if !strings.HasPrefix(block, "$ ") {
				t.Errorf("nothing tries what the page shows:\n%s", block)
			}
			s.try(block)
			count++
		}
	}
	if count < 4 {
		t.Errorf("the page shows %d blocks", count)
	}
	s.try("$ " + operatingRow(t) + "\n1 heads are ..\n1 files are sound: ..")
}

// operatingRow is the command of the page on operating that looks for tampering.
func operatingRow(t testing.TB) string {
	t.Helper()
	content, err := os.ReadFile(filepath.Join("..", "docs", "OPERATING.md"))
	if err != nil {
		t.Fatal(err)
	}
	return "front/out/" + inline(t, string(content), "review-front verify ")
}
