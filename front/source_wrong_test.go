package main

import (
	"fmt"
	"os"
	"strings"
	"testing"
)

// TestSourceWrong gives sources that are broken: each is told with its place, and nothing of any is sent.
func TestSourceWrong(t *testing.T) {
	s := newSourced(t, begin(t, t.TempDir()))
	s.write("hr.json", hrSource)
	good := "ann,it,a,01.02.2020,yes\n"
	s.write("people.csv", hrHead+good)
	s.does("1 added", "run")
	rows := strings.Builder{}
	for i := 0; i < 257; i++ {
		fmt.Fprintf(&rows, "t%d|", i)
	}
	for _, one := range []struct{ content, want string }{
		{hrHead + good + "bob,it,a,01.02.2020\n", "people.csv:3: it has 4 fields, and the head 5"},
		{hrHead + good + "bob,it,a,01.02.2020,yes,more\n", "people.csv:3: it has 6 fields, and the head 5"},
		{hrHead + "bob,it,a,2020-02-01,yes\n", `people.csv:2: hired of "bob": "2020-02-01" is no date of the form DD.MM.YYYY`},
		{hrHead + "bob,it,a,30.02.2020,yes\n", `"30.02.2020" is no date`},
		{hrHead + "bob,it,a,01.02.2020,maybe\n", `"maybe" is neither true nor false`},
		{hrHead + good + "ann,hr,b,01.02.2020,no\n", `people.csv:3: "ann" stands at `},
		{hrHead + ",hr,b,01.02.2020,no\n", `people.csv:2: "login", its name, is empty`},
		{hrHead + strings.Repeat("n", 257) + ",hr,b,01.02.2020,no\n",
			"people.csv:2: its name has 257 bytes, and may have 256"},
		{hrHead + "bob,it," + rows.String() + ",01.02.2020,yes\n", "it has 257 values, and may have 256"},
		{hrHead + good + "bob,it,a,01.02", "people.csv:3: the last line has no end"},
		{hrHead + good + "bob,it,\"a,01.02.2020,yes\n", "people.csv:3: extraneous or missing"},
		{hrHead + good + "b\xe4r,it,a,01.02.2020,yes\n", "people.csv:3: it isn't UTF-8"},
		{"login,dept,teams,hired\nann,it,a,01.02.2020\n", `people.csv:1: "cleared" stands 0 times in the head`},
		{"login,dept,teams,hired,cleared,dept\nann,it,a,01.02.2020,yes,it\n", `"dept" stands 2 times in the head`},
		{"", "it is empty"},
	} {
		s.write("people.csv", one.content)
		s.fails(1, one.want, "run", "--at-most", "100%")
		s.fails(1, one.want, "plan")
	}
	s.write("people.csv", hrHead)
	s.fails(4, "hr has none of its 1 people any more", "run")
	s.write("people.csv", hrHead+strings.Repeat("n", 256)+",hr,b,01.02.2020,no\n"+good)
	s.does("1 added", "run")
	s.write("people.csv", "more,"+hrHead+"x,"+good) // a column that nobody asked for
	s.does("0 added, 0 set, 1 dropped", "run")
	s.write("people.csv", hrHead+strings.ReplaceAll(good, "ann", "anna")) // somebody renamed
	s.does("1 added, 0 set, 1 dropped", "run")
	s.f.must("/can/anna")
	if status, _ := s.f.get("/can/ann"); status != 404 {
		t.Errorf("ann is still there: %d", status)
	}
}

// TestSourceCommand reads what commands write, as JSON lines: of one that fails nothing is taken, nor of half an
// output.
func TestSourceCommand(t *testing.T) {
	s := newSourced(t, begin(t, t.TempDir()))
	s.write("it.json", `{"source": "it", "resources": {"lines": {"command": ["sh", "-c", ". ./say"], "last": "END"},
		"name": {"from": "id", "case": "lower"},
		"attributes": {"size": {"from": "size", "type": "integer"}, "tags": {"from": "tags", "optional": true},
		"seen": {"from": "seen", "type": "dateTime", "form": "RFC 3339"}, "kind": "kind"}}}`)
	whole := `{"id":"Disk","size":12,"kind":"disk","seen":"2026-01-31T10:00:00+01:00"}` + "\n"
	for _, one := range []struct{ content, want string }{
		{whole, `its last line isn't "END"`},
		{whole + "END", "the last line has no end"},
		{whole + `{"id":"b","size":"x","kind":"k"}` + "\nEND\n", `sh -c . ./say:2: size of "b": "x" is no integer`},
		{whole + `{"id":"b","size":[],"kind":{"a":1}}` + "\nEND\n", `"kind": an object is no value`},
		{whole + `{"id":"b","id":"c"}` + "\nEND\n", `"id" stands twice`},
		{whole + "{\"id\":\"b\"\nEND\n", "it is no JSON object"},
		{whole + `{"id":"disk","kind":"k"}` + "\nEND\n", `"disk" stands at sh -c . ./say:1 already`},
		{`{"id":"b","kind":"k","size":1}` + "\nEND\n", `no record has "seen"`},
	} {
		s.write("told", one.content)
		s.write("say", "cat told\n")
		s.fails(1, one.want, "run")
	}
	s.write("told", whole+`{"id":"b","size":1,"kind":"k","seen":null,"tags":["x","a","x"],"other":{}}`+"\nEND\n")
	s.write("say", "cat told; echo no more >&2; exit 3\n")
	s.fails(1, "ends with exit status 3: no more", "run")
	s.write("say", "cat told; sleep 1000 | cat\n") // what it began ends with it
	s.fails(1, "deadline exceeded", "run", "--timeout", "1s")
	s.write("say", "cat told\n")
	s.does("it: 2 added", "run")
	told := s.f.must("/attributes?category=Resource&entity=disk") + s.f.must("/attributes?category=Resource&entity=b")
	for _, want := range []string{`"values":[12]`, `"values":["2026-01-31T09:00:00"]`, `"values":["a","x"]`} {
		if !strings.Contains(told, want) {
			t.Errorf("there is no %s in %s", want, told)
		}
	}
	s.fails(0, "", "run")
}

// TestSourceForms gives files of sources that can't be meant.
func TestSourceForms(t *testing.T) {
	s := newSourced(t, begin(t, t.TempDir()))
	people := func(rest string) string { return `{"source":"a","people":{"csv":{"file":"x"},"name":"n"` + rest + `}}` }
	for _, one := range []struct{ content, want string }{
		{`{"source":"a","people":{"csv":{"file":"x"},"nam":"n"}}`, `unknown field "nam"`},
		{`{"people":{"csv":{"file":"x"},"name":"n"}}`, `"source" is the name of the source`},
		{`{"source":"a"}`, `there are no "people"`},
		{`{"source":"a","module":4,"people":{"csv":{"file":"x"},"name":"n"}}`, "module 4 isn't one of 0 to 3"},
		{`{"source":"a","people":{"name":"n"}}`, `one of "csv", "lines", "ldap" and "postgres"`},
		{people(`,"attributes":{"a":{"from":"b","type":"text"}}`), `there is no type "text"`},
		{people(`,"attributes":{"a":{"from":"b","type":"date","form":"D.M."}}`), `there is no form "D.M." of a date`},
		{people(`,"attributes":{"a":{"from":"b","form":"hh:mm"}}`), "a string has no form"},
		{people(`,"attributes":{"urn:review:source:b":"b"}`), "is kept for marks"},
		{people(`,"attributes":{"a":"b"},"gone":["a"]`), `"a" stands twice`},
	} {
		s.write("a.json", one.content)
		s.fails(1, one.want, "run")
	}
	// Two files that have the same attribute, in one module and in two.
	s.write("a.json", people(`,"attributes":{"a":"b"}`))
	s.write("b.json", strings.Replace(people(`,"attributes":{"a":"b"}`), `"a"`, `"b"`, 1))
	s.fails(1, `both have "a" of people in module 0`, "run")
	s.write("b.json", people(`,"attributes":{"c":"b"}`))
	s.fails(1, `are both the source "a"`, "run")
	if status, _, faults := s.run("look"); status != 2 || !strings.Contains(faults, "plan or run") {
		t.Errorf("another command ends with %d %s", status, faults)
	}
	if status, _, _ := s.run("run", "--at-most", "5"); status != 2 {
		t.Errorf("a share that isn't one ends with %d", status)
	}
	if err := os.Remove(s.folder + "/b.json"); err != nil {
		t.Fatal(err)
	}
	s.fails(1, "no such file", "run")
}
