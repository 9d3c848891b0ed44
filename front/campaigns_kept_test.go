package main

import (
	"fmt"
	"net/http"
	"os"
	"path/filepath"
	"strings"
	"testing"

	"review-front/folder"
)

// TestCampaignKept takes files of a folder with a campaign away, damages them, starts anew, repairs and restores:
// what is told of the campaign is the same, and a journal without a campaign is as it was before there were any.
func TestCampaignKept(t *testing.T) {
	access, path := reviewing(t), t.TempDir()
	words := []string{"--access", access, "--snapshot-every", "20"}
	f := begin(t, path, words...)
	f.as(t, "boss", http.MethodPost, "/lines", strings.Join(clinic(t), "\n")+"\n")
	if format := formatOf(t, path); format != 3 {
		t.Errorf("a journal without a campaign has the format %d", format)
	}
	if got := f.as(t, "boss", http.MethodPost, "/campaigns", opening("q4", "rita", "")); got.status != 200 {
		t.Fatal(got)
	}
	if format := formatOf(t, path); format != 4 {
		t.Errorf("a journal with a campaign has the format %d", format)
	}
	f.signAll(t, "rita", "q4", "state=open&count=5")
	for i := 0; i < 30; i++ {
		f.as(t, "editor", http.MethodPost, "/lines", setRole("emil", []string{"nurse", "doctor"}[i%2]))
	}
	want := f.as(t, "boss", http.MethodGet, "/campaigns/q4/items?count=1000", "").body
	again := func(what string, change func()) {
		t.Helper()
		f.stop()
		change()
		f = begin(t, path, words...)
		if got := f.as(t, "boss", http.MethodGet, "/campaigns/q4/items?count=1000", ""); got.body != want {
			t.Errorf("%s: items are told as\n%.1500s\nand were\n%.1500s", what, got.body, want)
		}
	}
	items := func() string {
		all, err := filepath.Glob(filepath.Join(path, folder.CampaignName+"*"))
		if err != nil || len(all) != 1 {
			t.Fatal(all, err)
		}
		return all[0]
	}
	again("a start", func() {})
	again("items are gone", func() { must(t, os.Remove(items())) })
	again("items are damaged", func() { must(t, flip(items(), 1, 2)) })
	again("what is old is taken away", func() { words = append(words, "--keep", "1ns", "--keep-history", "1ns") })
	again("and again", func() { words = words[:4] })
	again("what edits changed is gone", func() {
		all, _ := filepath.Glob(filepath.Join(path, folder.ChangesName+"*"))
		for _, name := range all {
			must(t, os.Remove(name))
		}
	})
	before := len(f.programs())
	f.killProgram()
	eventually(t, "another program has the state", func() bool { return len(f.programs()) > before })
	if got := f.as(t, "boss", http.MethodGet, "/campaigns/q4/items?count=1000", ""); got.body != want {
		t.Errorf("items are told otherwise behind the program's end")
	}
	again("a copy", func() {
		copied := filepath.Join(t.TempDir(), "copy")
		var said strings.Builder
		if status := repair([]string{"--journal", path, copied}, &said, &said); status != 0 {
			t.Fatal(said.String())
		}
		path = copied
	})
}

// must ends the test where something fails.
func must(t testing.TB, err error) {
	t.Helper()
	if err != nil {
		t.Fatal(err)
	}
}

// formatOf is the format of the newest journal of a folder.
func formatOf(t *testing.T, path string) (format int) {
	t.Helper()
	f := &forger{t: t, path: path}
	names := f.files("journal-")
	head := string(f.read(names[len(names)-1])[0])
	_, format1, _ := strings.Cut(head, `"format":`)
	if _, err := fmt.Sscan(format1, &format); err != nil {
		// behind the number stands a comma
		_, err = fmt.Sscanf(format1, "%d,", &format)
		must(t, err)
	}
	return format
}

// TestCampaignDisk has the disk be full while somebody signs: what got 503 isn't signed, what was answered is, and once
// there is room again serials go on.
func TestCampaignDisk(t *testing.T) {
	access := reviewing(t)
	f, _ := campaignsOpened(t, access, "")
	path := f.folder
	keep := func(nth int) int {
		t.Helper()
		told := f.items(t, "rita", "q4", "count=1000")
		got := f.as(t, "rita", http.MethodPost, "/campaigns/q4/keep", actOn(nth%len(told.Groups), told, ""))
		if got.status != http.StatusOK && got.status != http.StatusServiceUnavailable {
			t.Fatal(got)
		}
		return got.status
	}
	limitFiles(t, f.process.Process.Pid, 24_000)
	for nth := 0; keep(nth) == http.StatusOK; nth++ {
		if nth == 1000 {
			t.Fatal("the disk isn't full")
		}
	}
	m := newReviewed(t)
	same := func() {
		t.Helper()
		m.follow(path)
		eventually(t, "questions are answered", func() bool {
			return f.as(t, "boss", http.MethodGet, "/campaigns/q4", "").status == http.StatusOK
		})
		m.same(f)
	}
	same()
	limitFiles(t, f.process.Process.Pid, 1<<40)
	eventually(t, "an act is taken", func() bool { return keep(3) == http.StatusOK })
	for nth := 7; nth < 11; nth++ {
		if got := keep(nth); got != http.StatusOK {
			t.Errorf("behind a full disk an act is answered %d", got)
		}
	}
	same()
	f.kill()
	f = begin(t, path, "--access", access)
	same()
}
