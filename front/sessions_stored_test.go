package main

import (
	"encoding/json"
	"net/http"
	"os"
	"path/filepath"
	"regexp"
	"strings"
	"testing"
)

// stored is a session that the gate runs: lines, and the replies that they have to have.
type stored struct {
	name, modules  string
	lines, replies []string
}

// storedSessions reads the gate's sessions but those that write lines by repetition.
func storedSessions(t *testing.T) []stored {
	t.Helper()
	content, err := os.ReadFile(filepath.Join("..", "crates", "conformance", "stdin"))
	if err != nil {
		t.Fatal(err)
	}
	var all []stored
	for _, part := range strings.Split("\n"+string(content), "\n# ")[1:] {
		if strings.Contains(part, "«") || strings.Contains(part, "\n* ") {
			continue
		}
		lines := strings.Split(part, "\n")
		words := strings.Fields(lines[0])
		s := stored{name: words[0], modules: "2"}
		if len(words) > 1 {
			s.modules = words[1]
		}
		for _, l := range lines[1:] {
			switch {
			case l == ">" || strings.HasPrefix(l, "> "):
				s.lines, s.replies = append(s.lines, strings.TrimPrefix(l[1:], " ")), append(s.replies, "")
			case strings.HasPrefix(l, "< "):
				s.replies[len(s.replies)-1] = l[2:]
			}
		}
		all = append(all, s)
	}
	return all
}

// marksIn are the marks of which a state tells.
var marksIn = regexp.MustCompile(`"marks":\[[^]]*\]`)

// TestStoredSessions sends the gate's sessions: each reply is, byte by byte, that of the program. Some are asked
// again over another start, whose dump is the same.
func TestStoredSessions(t *testing.T) {
	theProgram(t)
	sessions := storedSessions(t)
	if len(sessions) < 100 {
		t.Fatalf("there are %d sessions", len(sessions))
	}
	step := number("FRONT_SESSIONS", 8)
	for i := 0; i < len(sessions); i += step {
		s := sessions[i]
		path := t.TempDir()
		words := []string{"--attribute-modules", s.modules, "--policy-modules", s.modules}
		f := begin(t, path, words...)
		for i, reply := range f.lines(s.lines...) {
			// The program's marks are the front's, by which more can be asked than by a client's.
			if s.replies[i] == unmarked && strings.Contains(s.lines[i], `"do":"changes"`) {
				if reply != unmarked && !strings.HasPrefix(reply, `{"changes":[`) {
					t.Errorf("%s: %s is answered %s", s.name, s.lines[i], reply)
				}
				continue
			}
			if strings.HasPrefix(s.replies[i], `{"state":`) {
				reply, s.replies[i] = marksIn.ReplaceAllString(reply, ""), marksIn.ReplaceAllString(s.replies[i], "")
			}
			if s.replies[i] != "" && reply != s.replies[i] {
				t.Fatalf("%s: %s is answered %s, and not %s", s.name, s.lines[i], reply, s.replies[i])
			}
		}
		asked(t, f, s)
		dump := f.must("/dump")
		if i%(2*step) == 0 {
			f.kill()
			if f = begin(t, path, words...); f.must("/dump") != dump {
				t.Errorf("%s: the dump is another one after a start", s.name)
			}
		}
		f.kill()
	}
}

// asked sends the last request of a session by itself, if no edit is behind it.
func asked(t *testing.T, f *front, s stored) {
	t.Helper()
	for i := len(s.lines) - 1; i >= 0 && !strings.HasPrefix(s.replies[i], `{"changes"`) && s.replies[i] != ""; i-- {
		var l struct {
			Do      string
			Request json.RawMessage
		}
		if json.Unmarshal([]byte(s.lines[i]), &l) != nil || l.Do != "ask" || l.Request == nil {
			continue
		}
		status, body := f.post("/authorize", string(l.Request))
		switch {
		case strings.HasPrefix(s.replies[i], `{"Response":`):
			if status != http.StatusOK || body != s.replies[i] {
				t.Errorf("%s: %s is answered %d %s", s.name, s.lines[i], status, body)
			}
		case s.replies[i] == `{"refused":14}` && status != http.StatusBadRequest:
			// (What the program refuses as one request may be several in one, which the front answers.)
			if status != http.StatusOK || strings.Count(body, `"Decision"`) < 2 {
				t.Errorf("%s: %s is answered %d %s", s.name, s.lines[i], status, body)
			}
		}
	}
}
