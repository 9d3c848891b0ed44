package main

import (
	"fmt"
	"strings"
	"sync/atomic"
	"testing"
	"time"
)

// named is a source of names of a file in CSV, with one attribute.
func namedSource(source, attribute, more string) string {
	return fmt.Sprintf(`{"source":%q,"module":1,"people":{"csv":{"file":"%s.csv"},"name":"n","attributes":{%q:"a"}%s}}`,
		source, source, attribute, more)
}

// TestSourceSeveral has three sources share a module. A name goes with the last of those that list it, and takes the
// rows of all with it; one that gives rows alone lists nobody.
func TestSourceSeveral(t *testing.T) {
	s := newSourced(t, begin(t, t.TempDir()))
	s.write("a.json", namedSource("a", "dept", ""))
	s.write("b.json", namedSource("b", "desk", ""))
	s.write("c.json", namedSource("c", "badge", `,"listed_only":true`))
	s.write("a.csv", "n,a\nann,x\nbob,x\n")
	s.write("b.csv", "n,a\nann,y\n")
	s.write("c.csv", "n,a\nann,1\nbob,2\ncyd,3\n")
	s.does("a: 2 added, 0 set, 0 dropped\nb: 0 added, 1 set, 0 dropped\nc: 0 added, 2 set, 0 dropped, 1 passed over",
		"run")
	s.fails(0, "", "run")
	s.namesLast("ann", 6) // those of all sources
	if told := s.f.must("/attributes?category=AccessSubject&entity=cyd"); told != `{"attributes":[]}` {
		t.Errorf("cyd has %s", told)
	}
	s.write("a.csv", "n,a\nbob,x\n")
	s.does("a: 0 added, 0 set, 0 dropped, 1 left to others\nb: 0 added", "run")
	if told := s.f.must("/attributes?category=AccessSubject&entity=ann"); strings.Contains(told, "dept") ||
		!strings.Contains(told, "desk") || !strings.Contains(told, "badge") {
		t.Errorf("ann has %s", told)
	}
	s.write("b.csv", "n,a\n")
	s.does("b: 0 added, 0 set, 1 dropped\n", "run", "--at-most", "100%")
	if told := s.f.must("/attributes?category=AccessSubject&entity=ann"); told != `{"attributes":[]}` {
		t.Errorf("behind her end ann has %s", told)
	}
	// Somebody drops a name by hand: it comes again, or its rows go too.
	s.write("b.csv", "n,a\nbob,y\neva,z\n")
	s.does("b: 1 added, 1 set, 0 dropped", "run")
	s.f.accept(`{"do":"person.drop","name":"eva"}`)
	s.does("b: 1 added, 0 set, 0 dropped", "run")
	s.f.accept(`{"do":"person.drop","name":"eva"}`)
	for n := 0; n < 30; n++ {
		s.f.accept(fmt.Sprintf(`{"do":"person.add","name":"other%d"}`, n)) // of so many all rows are read
	}
	s.write("b.csv", "n,a\nbob,y\n")
	s.does("b: 0 added, 0 set, 0 dropped, 1 left to others", "run")
	if told := s.f.must("/attributes?category=AccessSubject&entity=eva"); told != `{"attributes":[]}` {
		t.Errorf("behind her end eva has %s", told)
	}
	for n := 0; n < 30; n++ {
		s.f.accept(fmt.Sprintf(`{"do":"person.drop","name":"other%d"}`, n))
	}
	// A source that can't be read keeps its names, whatever the others say, and they are brought all the same.
	s.write("b.csv", "n,a\nbob,y\nann,z\n")
	s.does("b: 1 added, 0 set, 0 dropped", "run")
	s.write("b.csv", "n,a\nbob")
	s.write("a.csv", "n,a\ndan,x\n")
	if status, out, faults := s.run("run", "--at-most", "100%"); status != 1 || !strings.Contains(faults, "b.csv:2") ||
		!strings.Contains(out, "a: 1 added, 0 set, 0 dropped, 1 left to others") {
		t.Errorf("a source that is broken beside others: %d %s%s", status, out, faults)
	}
	if told := s.f.must("/names?list=people"); told != `{"names":["bob","ann","dan"]}` {
		t.Errorf("there are %s", told)
	}
}

// TestSourceLimits exchanges everybody of a full list, which drops before it adds, and asks for more than there may be.
func TestSourceLimits(t *testing.T) {
	s := newSourced(t, begin(t, t.TempDir(), "--people", "300"))
	s.write("a.json", namedSource("a", "dept", ""))
	everybody := func(prefix string, count int) {
		text := strings.Builder{}
		text.WriteString("n,a\n")
		for i := 0; i < count; i++ {
			fmt.Fprintf(&text, "%s%d,d%d\n", prefix, i, i%7)
		}
		s.write("a.csv", text.String())
	}
	everybody("p", 300)
	s.does("300 added", "run")
	everybody("q", 300)
	s.does("300 added, 0 set, 300 dropped", "run", "--at-most", "100%")
	everybody("q", 301)
	s.fails(1, "there would be 301 people, and the front takes 300: start it with --people 301", "run")
	everybody("q", 200)
	s.fails(4, "a would drop 100 of its 300 people, more than 33%", "run", "--at-most", "33%")
	s.does("100 dropped", "run", "--at-most", "33.4%")
}

// TestSourceBetween has somebody else edit all the time, names of the source too, while it is brought: the edits in
// between are seen, and in the end all is as the source has it.
func TestSourceBetween(t *testing.T) {
	s := newSourced(t, begin(t, t.TempDir(), "--people", "4096", "--try-time", "1m"))
	s.write("a.json", namedSource("a", "dept", ""))
	text := strings.Builder{}
	text.WriteString("n,a\n")
	for i := 0; i < 1000; i++ {
		fmt.Fprintf(&text, "p%d,d%d\n", i, i%7)
	}
	s.write("a.csv", text.String())
	var stop atomic.Bool
	done := make(chan struct{})
	go func() {
		defer close(done)
		for i := 0; !stop.Load(); i++ {
			time.Sleep(20 * time.Millisecond)
			s.f.lines(fmt.Sprintf(`{"do":"day.set","day":"2026-01-%02d"}`, 1+i%28),
				fmt.Sprintf(`{"do":"person.drop","name":"p%d"}`, i%1000),
				fmt.Sprintf(`{"do":"person.add","name":"p%d"}`, (7*i)%1000))
		}
	}()
	status, out, faults := s.run("run")
	stop.Store(true)
	<-done
	if status != 0 {
		t.Fatalf("it ends with %d %s%s", status, out, faults)
	}
	s.does("", "run")
	s.fails(0, "", "run")
	if told := s.f.must("/state"); !strings.Contains(told, `"people":1000,`) || !strings.Contains(told, `"rows":2000,`) {
		t.Errorf("there are %s", told)
	}
}
