//go:build ldap && postgres

package main

import (
	"os"
	"os/exec"
	"path/filepath"
	"regexp"
	"strings"
	"testing"
)

// TestSourcePage runs the blocks of the page of sources as they stand, in one folder, over a directory and a database:
// each has ten lines at most.
func TestSourcePage(t *testing.T) {
	page, err := os.ReadFile(filepath.Join("..", "docs", "SOURCES.md"))
	if err != nil {
		t.Fatal(err)
	}
	f := begin(t, t.TempDir())
	folder := t.TempDir()
	write := func(name, content string, mode os.FileMode) {
		if err := os.WriteFile(filepath.Join(folder, name), []byte(content), mode); err != nil {
			t.Fatal(err)
		}
	}
	// The command is this test program, which is told where the front is.
	write("review-source", "#!/bin/sh\nword=$1; shift; exec env "+asSource+"=1 '"+os.Args[0]+"' $word --front http://"+
		f.address+" \"$@\"\n", 0o700)
	for _, one := range [][2]string{
		{"CSV", "hr: 2 added, 0 set, 0 dropped"},
		{"JSON lines, and what a command writes", "things: 1 added, 0 set, 0 dropped"},
		{"LDAP", "directory: 1 added, 1 set, 0 dropped"}, // one of them is there already
		{"PostgreSQL", "rooms: 1 added, 0 set, 0 dropped"},
	} {
		heading, want := one[0], one[1]
		t.Run(heading, func(t *testing.T) {
			block := blockOf(t, string(page), heading)
			if lines := strings.Count(block, "\n"); lines > 10 {
				t.Errorf("the block has %d lines", lines)
			}
			environment := append(os.Environ(), "PATH="+folder+":"+os.Getenv("PATH"))
			switch heading {
			case "LDAP":
				d := newDirectory(t, member(1)+"dn: uid=ann,"+suffix+"\nobjectClass: inetOrgPerson\nuid: ann\ncn: ann\nsn: a\n"+
					"mail: ann@clinic.example\n\n"+group("night", "uid=ann"))
				block = strings.Replace(block, "ldap://127.0.0.1", d.address, 1)
				own, err := os.ReadFile(d.certificate)
				if err != nil {
					t.Fatal(err)
				}
				write("directory.pem", string(own), 0o600)
				write("password", "secret\n", 0o600)
			case "PostgreSQL":
				d := newDatabase(t)
				host := strings.Fields(strings.TrimPrefix(d.connection, "host="))[0]
				block = strings.Replace(block, "PGHOST=/var/run/postgresql", "PGHOST="+host, 1)
				environment = append(environment, "PGUSER=review")
			}
			run := exec.Command("sh", "-eu", "-c", block)
			run.Dir, run.Env = folder, environment
			out, err := run.CombinedOutput()
			if err != nil || !strings.HasSuffix(string(out), want+"\n") {
				t.Fatalf("%v: %s, without %s", err, out, want)
			}
		})
	}
	if told := f.must("/attributes?category=AccessSubject&entity=ann"); !strings.Contains(told, "night") ||
		!strings.Contains(told, `["db","net"]`) || !strings.Contains(told, "2020-02-01") {
		t.Errorf("ann has %s", told)
	}
}

// blockOf is the block of commands below a heading.
func blockOf(t *testing.T, page, heading string) string {
	t.Helper()
	_, below, there := strings.Cut(page, "### "+heading+"\n\n")
	block := regexp.MustCompile(`(?m)\A(    .*\n)+`).FindString(below)
	if !there || block == "" {
		t.Fatalf("there is no block below %s", heading)
	}
	return strings.ReplaceAll("\n"+block, "\n    ", "\n")[1:]
}
