package main

import (
	"bytes"
	"context"
	"os"
	"path/filepath"
	"strings"
	"testing"

	"review-front/source"
)

// sourced is a folder with files of sources, and the front that they are brought to.
type sourced struct {
	t      testing.TB
	f      *front
	folder string
}

func newSourced(t testing.TB, f *front) *sourced { return &sourced{t, f, t.TempDir()} }

// write writes a file of the folder.
func (s *sourced) write(name, content string) {
	s.t.Helper()
	if err := os.WriteFile(filepath.Join(s.folder, name), []byte(content), 0o600); err != nil {
		s.t.Fatal(err)
	}
}

// run runs review-source over the folder, and gives its status, and what it says on both sides.
func (s *sourced) run(words ...string) (int, string, string) {
	s.t.Helper()
	var out, faults bytes.Buffer
	all := append([]string{words[0], "--front", "http://" + s.f.address}, words[1:]...)
	status := source.Run(context.Background(), append(all, s.folder), &out, &faults)
	return status, out.String(), faults.String()
}

// does runs it, which has to succeed and to say something.
func (s *sourced) does(want string, words ...string) {
	s.t.Helper()
	status, out, faults := s.run(words...)
	if status != 0 || !strings.Contains(out, want) {
		s.t.Fatalf("%q ends with %d, and says %s%s, without %q", words, status, out, faults, want)
	}
}

// fails runs it, which has to end with a status, to say why, and to change nothing.
func (s *sourced) fails(status int, want string, words ...string) {
	s.t.Helper()
	before := s.f.must("/state")
	ended, out, faults := s.run(words...)
	if ended != status || !strings.Contains(faults, want) {
		s.t.Fatalf("%q ends with %d, and says %s%s, without %q", words, ended, out, faults, want)
	}
	if after := s.f.must("/state"); after != before {
		s.t.Fatalf("%q changed %s to %s", words, before, after)
	}
}

// namesLast sees that a name was added behind so many rows.
func (s *sourced) namesLast(name string, rows int) {
	s.t.Helper()
	told := s.f.must("/edits?count=1000&entity=" + name)
	before, _, added := strings.Cut(told, `"kind":"person.add"`)
	if !added || strings.Count(before, `"kind":"attr.set"`) != rows {
		s.t.Errorf("%s isn't added behind %d rows: %s", name, rows, told)
	}
}

const hrSource = `{"source": "hr", "module": 1, "people": {"csv": {"file": "people.csv"}, "name": "login", "attributes": {
	"department": "dept", "teams": {"from": "teams", "list": "|"}, "cleared": {"from": "cleared", "type": "boolean"},
	"hired": {"from": "hired", "type": "date", "form": "DD.MM.YYYY"}}}}`

const hrHead = "login,dept,teams,hired,cleared\n"

// TestSource brings people of a file to a front: what is added, set and dropped, and nothing the second time.
func TestSource(t *testing.T) {
	s := newSourced(t, begin(t, t.TempDir()))
	s.f.accept(`{"do":"person.add","name":"zoe"}`)
	s.write("hr.json", hrSource)
	s.write("people.csv", hrHead+"ann,it,b|a,01.02.2020,yes\nbob,hr,,1.3.2021,no\n")
	s.does("hr: 2 added, 0 set, 0 dropped\n", "plan")
	if told := s.f.must("/names?list=people"); told != `{"names":["zoe"]}` {
		t.Fatalf("a plan left %s", told)
	}
	s.does("hr: 2 added, 0 set, 0 dropped\n", "run")
	s.fails(0, "", "run")
	s.namesLast("ann", 5)
	want := `"attribute":"teams","datatype":"http://www.w3.org/2001/XMLSchema#string","issuer":null,"module":1,` +
		`"values":["a","b"]`
	if told := s.f.must("/attributes?category=AccessSubject&entity=ann"); !strings.Contains(told, want) ||
		!strings.Contains(told, `#date","issuer":null,"module":1,"values":["2020-02-01"]`) {
		t.Errorf("ann has %s", told)
	}
	s.f.accept(`{"do":"attr.set","category":"AccessSubject","entity":"bob","attribute":"desk","type":"string",` +
		`"values":["b"]}`)
	s.write("people.csv", hrHead+"ann,it,a,01.02.2020,yes\n")
	s.does("hr: 0 added, 1 set, 1 dropped\n  dropped person bob\n", "plan")
	s.does("hr: 0 added, 1 set, 1 dropped\n", "run")
	if told := s.f.must("/names?list=people"); told != `{"names":["zoe","ann"]}` {
		t.Errorf("there are %s", told)
	}
	if told := s.f.must("/attributes?category=AccessSubject&entity=bob"); strings.Contains(told, `"module":1`) ||
		!strings.Contains(told, "desk") {
		t.Errorf("bob has %s", told)
	}
}
