package main

import (
	"context"
	"fmt"
	"os"
	"os/exec"
	"path/filepath"
	"regexp"
	"strings"
	"testing"
	"time"
)

// campaignsPage is the page whose commands are run.
const campaignsPage = "../docs/CAMPAIGNS.md"

// pageCommand is a command of a page, and the lines that it says there.
type pageCommand struct {
	words string
	says  []string
}

// commandsOf are the commands of a page: lines of its blocks behind `$`, each up to the next one. A line that ends
// with a backslash goes on.
func commandsOf(page string) (all []pageCommand) {
	for _, l := range strings.Split(page, "\n") {
		l, block := cutPrefix(l, "    ")
		words, command := cutPrefix(l, "$ ")
		last := len(all) - 1
		switch {
		case !block:
		case command:
			all = append(all, pageCommand{words: words})
		case last >= 0 && strings.HasSuffix(all[last].words, `\`):
			all[last].words += "\n" + l
		case last >= 0:
			all[last].says = append(all[last].says, l)
		}
	}
	return all
}

var (
	aTime = regexp.MustCompile(`\d{4}-\d\d-\d\dT\d\d:\d\d:\d\d(\.\d+)?Z`)
	aSum  = regexp.MustCompile(`[0-9a-f]{64}`)
	anID  = regexp.MustCompile(`[0-9a-f]{8}-[0-9a-f]{4}-[0-9a-f]{4}-[0-9a-f]{4}-[0-9a-f]{12}`)
)

// alike is a line without what is another one each time.
func alike(l string) string {
	return anID.ReplaceAllString(aSum.ReplaceAllString(aTime.ReplaceAllString(l, "TIME"), "SUM"), "ID")
}

// isSaid says whether a line is as a page has it, which may leave out its end.
func isSaid(said, page string) bool {
	begins, cut := strings.TrimSuffix(page, " .."), strings.HasSuffix(page, " ..")
	if cut {
		said, begins = alike(said), alike(begins)
		return strings.HasPrefix(said, begins)
	}
	return alike(said) == alike(page)
}

// TestCampaignsPage runs the commands of the page on campaigns as they are written, and compares what they say with
// what stands there. FRONT_PAGE names a file into which the page is written with what they said.
func TestCampaignsPage(t *testing.T) { tryPage(t, campaignsPage, 20) }

// TestScimPage does so with the page on SCIM.
func TestScimPage(t *testing.T) { tryPage(t, "../docs/SCIM.md", 15) }

// tryPage runs the commands of a page, which has so many at least.
func tryPage(t *testing.T, page string, least int) {
	t.Helper()
	for _, needed := range []string{"bash", "curl", "jq", "openssl"} {
		if _, err := exec.LookPath(needed); err != nil {
			t.Skip(needed + " isn't there")
		}
	}
	content, err := os.ReadFile(page)
	if err != nil {
		t.Fatal(err)
	}
	commands := commandsOf(string(content))
	if len(commands) < least {
		t.Fatalf("the page has %d commands", len(commands))
	}
	said := runPage(t, commands)
	if to := os.Getenv("FRONT_PAGE"); to != "" {
		if err := os.WriteFile(to, []byte(filled(string(content), said)), 0o600); err != nil {
			t.Fatal(err)
		}
	}
	for i, command := range commands {
		same := len(said[i]) == len(command.says)
		for at := 0; same && at < len(said[i]); at++ {
			same = isSaid(said[i][at], command.says[at])
		}
		if !same {
			t.Errorf("%s\nsays\n%s\nand on the page\n%s", command.words, strings.Join(said[i], "\n"),
				strings.Join(command.says, "\n"))
		}
	}
}

// runPage runs commands of a page in one shell, and gives the lines that each said.
func runPage(t *testing.T, commands []pageCommand) [][]string {
	t.Helper()
	here, err := os.Getwd()
	if err == nil {
		here, err = filepath.EvalSymlinks(here) // builds come here by a link
	}
	if err != nil {
		t.Fatal(err)
	}
	folder := t.TempDir()
	port := freePorts(t, 1)[0]
	front := fmt.Sprintf("#!/bin/sh\nexport %s=1\ncase $1 in --*) "+
		"exec %q \"$@\" --listen 127.0.0.1:%s;; esac\nexec %q \"$@\"\n",
		asFront, os.Args[0], port, os.Args[0])
	for name, content := range map[string]string{"front/out/review-front": front} {
		path := filepath.Join(folder, name)
		if err := os.MkdirAll(filepath.Dir(path), 0o700); err != nil {
			t.Fatal(err)
		}
		if err := os.WriteFile(path, []byte(content), 0o700); err != nil {
			t.Fatal(err)
		}
	}
	if err := os.Symlink(filepath.Join(here, "../examples"), filepath.Join(folder, "examples")); err != nil {
		t.Fatal(err)
	}
	now := time.Now().UTC()
	words := strings.NewReplacer("127.0.0.1:8080", "127.0.0.1:"+port, "crates/review/out/review", theProgram(t),
		"2026-12-15", now.AddDate(0, 0, 15).Format("2006-01-02"), "2026-12-31", now.AddDate(0, 0, 30).Format("2006-01-02"),
		"2027-03-31", now.AddDate(0, 0, 120).Format("2006-01-02"))
	const mark = "=== the next command ==="
	script := "set -m\n"
	for _, command := range commands {
		script += words.Replace(command.words) + "\necho; echo '" + mark + "'\n"
	}
	script += "kill %1; wait\n"
	out, err := shelled(t, folder, script)
	parts := strings.Split(string(out), mark+"\n")
	if len(parts) != len(commands)+1 {
		t.Fatalf("%d commands say %d parts: %v\n%s", len(commands), len(parts)-1, err, out)
	}
	var said [][]string
	for _, part := range parts[:len(commands)] {
		var lines []string
		for _, l := range strings.Split(part, "\n") {
			if l != "" {
				lines = append(lines, l)
			}
		}
		said = append(said, lines)
	}
	return said
}

// columns is how long a line of a page is at most.
const columns = 120

// filled is a page with what its commands said.
func filled(page string, said [][]string) string {
	var lines []string
	command, goesOn := -1, false
	for _, l := range strings.Split(page, "\n") {
		inside, block := cutPrefix(l, "    ")
		_, begins := cutPrefix(inside, "$ ")
		if block && !begins && !goesOn && command >= 0 {
			continue // what it said before
		}
		lines = append(lines, l)
		if block && begins {
			command++
		}
		if goesOn = block && (begins || goesOn) && strings.HasSuffix(l, `\`); !block || goesOn {
			continue
		}
		for _, one := range said[command] {
			if one = "    " + one; len(one) > columns {
				one = one[:columns-3] + " .."
			}
			lines = append(lines, one)
		}
	}
	return strings.Join(lines, "\n")
}

// shelled runs a script in a folder, and gives what it said.
func shelled(t *testing.T, folder, script string) ([]byte, error) {
	t.Helper()
	path := filepath.Join(t.TempDir(), "said")
	said, err := os.Create(path) // no pipe, which what it started might hold
	if err != nil {
		t.Fatal(err)
	}
	defer said.Close()
	ctx, cancel := context.WithTimeout(context.Background(), patient)
	defer cancel()
	shell := exec.CommandContext(ctx, "bash", "-c", script)
	shell.Dir, shell.Stdout, shell.Stderr = folder, said, said
	failed := shell.Run()
	out, err := os.ReadFile(path)
	if err != nil {
		t.Fatal(err)
	}
	return out, failed
}
