package main

import (
	"bytes"
	"crypto/sha256"
	"fmt"
	"net"
	"os"
	"os/exec"
	"path/filepath"
	"regexp"
	"strings"
	"testing"
)

// enforcing is the page that says how the front is asked by those who enforce.
func enforcing(t testing.TB) string {
	t.Helper()
	content, err := os.ReadFile(filepath.Join("..", "docs", "ENFORCING.md"))
	if err != nil {
		t.Fatal(err)
	}
	return string(content)
}

// inline is what stands between quotes on a page and begins so.
func inline(t testing.TB, page, begins string) string {
	t.Helper()
	found := regexp.MustCompile("`(" + regexp.QuoteMeta(begins) + "[^`]*)`").FindStringSubmatch(page)
	if found == nil {
		t.Fatalf("the page has nothing that begins %s", begins)
	}
	return found[1]
}

// blocks are what a page shows: its lines that are four signs further to the right, with an empty line before.
func blocks(page string) []string {
	var all []string
	for _, part := range regexp.MustCompile(`(?m)\n\n((?:    .*\n|\n)+)`).FindAllStringSubmatch(page, -1) {
		all = append(all, strings.TrimSpace(regexp.MustCompile(`(?m)^    `).ReplaceAllString(part[1], "")))
	}
	return all
}

// shownAddress is that of the front of each block that asks one.
const shownAddress = "127.0.0.1:8080"

// TestEnforcingPage does what each block of the page shows, as it is written there but for addresses, and sees that it
// comes out so.
func TestEnforcingPage(t *testing.T) {
	page := enforcing(t)
	shown := blocks(page)
	kinds := []struct {
		begins string
		try    func(*testing.T, string)
		count  int
	}{
		{"{", shownFile, 1},
		{"$ front/out/review-front ", shownStart, 1},
		{"$ curl ", shownCommands, 1},
		{"from review_client import ", clientShown("python3", "shown.py"), 1},
		{"package main\n", clientShown("go", "shown.go"), 1},
		{"import {Client} ", clientShown("node", "shown.mjs"), 1},
		{clientPrints(t, page), func(*testing.T, string) {}, 1},
	}
	for _, block := range shown {
		block, known := block, false
		for at := range kinds {
			if one := &kinds[at]; strings.HasPrefix(block, one.begins) && !known {
				known = true
				one.count--
				t.Run(strings.Fields(block)[0]+" "+fmt.Sprint(at), func(t *testing.T) { one.try(t, block) })
			}
		}
		if !known {
			t.Errorf("nothing tries what the page shows:\n%s", block)
		}
	}
	for _, one := range kinds {
		if one.count != 0 {
			t.Errorf("of blocks that begin %q there are %d fewer than are tried", one.begins, one.count)
		}
	}
}

// beside are the options on the page that are of other programs.
var beside = map[string]string{
	"--authorization-config": "an API server's", "--only": "that of bench/front/run.sh", "--data-binary": "curl's",
}

// TestEnforcingWords sees that each option on the page is the front's, or of another program that is named.
func TestEnforcingWords(t *testing.T) {
	var help bytes.Buffer
	parse([]string{"--help"}, &help)
	for _, word := range regexp.MustCompile(`--[a-z][a-z-]*`).FindAllString(enforcing(t), -1) {
		if _, other := beside[word]; !other && !strings.Contains(help.String(), "\n  -"+word[2:]+" ") {
			t.Errorf("the front has no option %s", word)
		}
	}
}

// TestEnforcingFigures runs the command of the page's figures, for a moment.
func TestEnforcingFigures(t *testing.T) {
	program := theProgram(t)
	proxyProgram(t, "nginx")
	for _, port := range []string{"18000", "18001", "18080", "19000"} {
		if conn, err := net.Dial("tcp", "127.0.0.1:"+port); err == nil {
			conn.Close()
			t.Skip("somebody else listens where it would: " + port)
		}
	}
	command := strings.Replace(inline(t, enforcing(t), "bench/front/run.sh "), "PROGRAM", program, 1)
	run := exec.Command("sh", "-c", command+" --time 1s")
	run.Dir = ".."
	told, err := run.CombinedOutput()
	for _, want := range []string{"nginx alone", "nginx that asks, 0 askers", "nginx that asks, 2 askers"} {
		if !strings.Contains(string(told), want) || err != nil {
			t.Errorf("there is no %s in %s, %v", want, told, err)
		}
	}
}

// shownFile has a front ask by a file as it is written on the page, which is that of the examples.
func shownFile(t *testing.T, block string) {
	example, err := os.ReadFile(filepath.Join("..", "examples", "proxies", "check.json"))
	if err != nil || strings.TrimSpace(string(example)) != block {
		t.Errorf("the example is another file, %v", err)
	}
	f := begin(t, t.TempDir(), "--check", checkFile(t, block))
	f.accept(clinic(t)...)
	for uri, want := range map[string]int{"/records/moss": 204, "/records/moss/": 403} {
		if got := f.checks("GET", uri, "X-User", "ada"); got.StatusCode != want {
			t.Errorf("%s is answered %d %v", uri, got.StatusCode, got.Header)
		}
	}
}

// shownCommands runs lines behind `$ ` at the top of the repository, and compares what they print with what is below.
func shownCommands(t *testing.T, block string) {
	if _, err := exec.LookPath("curl"); err != nil {
		t.Skip("there is no curl")
	}
	f := begin(t, t.TempDir())
	for _, part := range strings.Split("\n"+block, "\n$ ")[1:] {
		command, want, _ := strings.Cut(part, "\n")
		run := exec.Command("sh", "-c", strings.ReplaceAll(command, shownAddress, f.address))
		run.Dir = ".."
		if told, err := run.CombinedOutput(); err != nil || strings.TrimSpace(string(told)) != want {
			t.Errorf("%s prints %s, %v", command, told, err)
		}
	}
}

// clientPrints is what the page says that each client's program prints: the block below the last of them.
func clientPrints(t testing.TB, page string) string {
	t.Helper()
	_, below, found := strings.Cut(page, "\nask the clinic's front, which knows the token, and print\n")
	if all := blocks("\n" + below); found && len(all) > 0 {
		return all[0]
	}
	t.Fatal("the page doesn't say what the clients print")
	return ""
}

// ownFolder is where these tests stand, without the link by which they are built.
func ownFolder(t testing.TB) string {
	t.Helper()
	folder, err := os.Getwd()
	if err == nil {
		folder, err = filepath.EvalSymlinks(folder)
	}
	if err != nil {
		t.Fatal(err)
	}
	return folder
}

// clientShown tries a program of a client, in the folder of which its package is found, over a front of the clinic that
// knows its token.
func clientShown(language, file string) func(*testing.T, string) {
	return func(t *testing.T, block string) {
		if _, err := exec.LookPath(language); err != nil {
			t.Skipf("there is no %s", language)
		}
		t.Parallel()
		token := regexp.MustCompile(`[Tt]oken[=:] ?['"]([^'"]+)['"]`).FindStringSubmatch(block)
		if token == nil {
			t.Fatalf("there is no token in\n%s", block)
		}
		folder, journal := t.TempDir(), t.TempDir()
		before := begin(t, journal)
		before.accept(clinic(t)...)
		before.stop()
		hash := sha256.Sum256([]byte(token[1]))
		known := fmt.Sprintf(`{"name":"ward","roles":["ask","read","audit"],"token_sha256":"%x"}`, hash)
		f := begin(t, journal, "--access", accessFile(t, known))
		writtenFor(t, folder, file, block, shownAddress, f.address)
		clients, want := filepath.Join(ownFolder(t), "..", "clients"), clientPrints(t, enforcing(t))
		words := []string{file}
		switch language {
		case "go":
			words = []string{"run", "."}
			writtenFor(t, folder, "go.mod", "module shown\n\ngo 1.19\n\nrequire review-client v0.0.0\n\n"+
				"replace review-client => "+filepath.Join(clients, "go")+"\n")
		case "node":
			const module = "review_client.mjs"
			if err := os.Symlink(filepath.Join(clients, "js", module), filepath.Join(folder, module)); err != nil {
				t.Fatal(err)
			}
		}
		// On a busy machine the front may take longer than a client waits.
		told, err := "", error(nil)
		for try := 0; try < mostTries && (err != nil || told != want); try++ {
			told, err = printed(folder, clients, language, words)
		}
		if err != nil || told != want {
			t.Errorf("it prints %s, %v", told, err)
		}
	}
}

// mostTries is how often a client's program is run until it prints what it has to.
const mostTries = 5

// printed is what a client's program prints, in a folder.
func printed(folder, clients, language string, words []string) (string, error) {
	run := exec.Command(language, words...)
	run.Dir = folder
	run.Env = append(os.Environ(), "GO111MODULE=on", "GOFLAGS=", "PYTHONDONTWRITEBYTECODE=1",
		"PYTHONPATH="+filepath.Join(clients, "python"))
	told, err := run.CombinedOutput()
	return strings.TrimSpace(string(told)), err
}
