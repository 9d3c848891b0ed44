package main

import (
	"bytes"
	"context"
	"crypto/sha256"
	"fmt"
	"io"
	"net"
	"net/http"
	"strings"
	"testing"

	"review-front/source"
)

// TestSourceAtMost loses Permits: who loses what is told before, and more than may be lost changes nothing.
func TestSourceAtMost(t *testing.T) {
	s := newSourced(t, begin(t, t.TempDir(), "--dry-time", "5m"))
	s.f.accept(teamPolicy...)
	s.write("company.json", companySource)
	people := func(cleared string) {
		text := "n,teams,cleared,since\n"
		for i := 0; i < 10; i++ {
			text += fmt.Sprintf("p%d,it,%v,2020-01-01\n", i, strings.Contains(cleared, fmt.Sprint(i)))
		}
		s.write("people.csv", text)
	}
	s.write("things.jsonl", `{"n":"disk","teams":["it"]}`+"\n"+`{"n":"tape","teams":"it"}`+"\n")
	people("0123456789")
	s.does("0 Permits gained, 0 lost, of 0", "plan", "--at-most", "5%") // nobody is listed yet whose Permits they would be
	s.does("12 added", "run", "--at-most", "5%")
	people("12345678")
	s.does("p0 loses use disk\np0 loses use tape\np9 loses use disk\np9 loses use tape\n"+
		"0 Permits gained, 4 lost, of 20", "plan")
	s.fails(4, "4 of 20 Permits would be lost, more than 19%: nothing was changed", "run", "--at-most", "19%")
	s.fails(4, "4 of 20 Permits", "plan", "--at-most", "19%")
	s.does("0 added, 2 set", "run", "--at-most", "20%")
	people("123456789")
	s.does("p9 gains use disk\np9 gains use tape\n2 Permits gained, 0 lost, of 16", "plan", "--at-most", "0%")
	s.does("0 added, 1 set", "run", "--at-most", "0%")
	s.write("things.jsonl", "")
	s.fails(4, "company has none of its 2 resources any more", "run")
	s.fails(4, "company would drop 2 of its 2 resources, more than 99%", "run", "--at-most", "99%")
	s.does("2 dropped", "run", "--at-most", "100%")
}

// TestSourceUntold can't be told what would be lost: of a front with other modules than are compared.
func TestSourceUntold(t *testing.T) {
	s := newSourced(t, begin(t, t.TempDir(), "--attribute-modules", "3"))
	s.f.accept(teamPolicy...)
	s.write("company.json", companySource)
	s.write("things.jsonl", `{"n":"disk","teams":["it"]}`+"\n")
	s.write("people.csv", "n,teams,cleared,since\nann,it,yes,2020-01-01\n")
	s.does("2 added", "run", "--at-most", "5%") // there is no Permit yet
	s.write("people.csv", "n,teams,cleared,since\nann,it,no,2020-01-01\n")
	s.does("it can't be told who would gain and who would lose what", "plan")
	s.fails(4, "--untold goes on without: nothing was changed", "run", "--at-most", "5%")
	s.does("1 set", "run", "--at-most", "5%", "--untold")
}

// TestSourceWho brings sources by tokens: each edit is written down under the source's name, and who may not edit
// changes nothing.
func TestSourceWho(t *testing.T) {
	access := func(name, token, roles string) string {
		return fmt.Sprintf(`{"name":%q,"token_sha256":"%x","roles":[%s]}`+"\n", name, sha256.Sum256([]byte(token)), roles)
	}
	s := &sourced{t: t, folder: t.TempDir()}
	s.write("access", access("hr", "first", `"read","edit"`)+access("it", "second", `"read"`)+
		access("root", "third", `"read","audit"`))
	s.f = launch(t, t.TempDir(), "--access", s.folder+"/access")
	eventually(t, "the front listens", func() bool { return strings.Contains(s.f.log(), "the state stands") })
	s.f.address = addressOf.FindStringSubmatch(s.f.log())[1]
	s.write("hr.token", "first\n")
	s.write("a.json", strings.Replace(namedSource("a", "dept", ""), `{`, `{"token":"hr.token",`, 1))
	text := "n,a\nann,x\n"
	for n := 1; n < 30; n++ {
		text += fmt.Sprintf("p%d,x\n", n)
	}
	s.write("a.csv", text)
	s.does("a: 30 added", "run") // each is asked for, since this role has no dump
	s.does("a: 0 added, 0 set, 0 dropped", "run")
	request, err := http.NewRequest(http.MethodGet, s.f.url("/edits"), nil)
	if err != nil {
		t.Fatal(err)
	}
	request.Header.Set("Authorization", "Bearer third")
	answer, err := http.DefaultClient.Do(request)
	if err != nil {
		t.Fatal(err)
	}
	if status, told := bodyOf(t, answer); status != 200 || strings.Count(told, `"by":"hr"`) != 90 {
		t.Errorf("edits are told as %d %s", status, told)
	}
	s.write("hr.token", "second\n")
	s.write("a.csv", "n,a\nann,x\nbob,x\n")
	if status, _, faults := s.run("run"); status != 1 || !strings.Contains(faults, "403") {
		t.Errorf("who may not edit ends with %d %s", status, faults)
	}
	s.write("hr.token", "wrong\n")
	if status, _, faults := s.run("run", "--patience", "0s"); status != 1 || !strings.Contains(faults, "401") {
		t.Errorf("who isn't known ends with %d %s", status, faults)
	}
}

// TestSourceByHeader tells the source's name in a field of the head, as a front has it that believes it.
func TestSourceByHeader(t *testing.T) {
	s := newSourced(t, begin(t, t.TempDir(), "--by-header", "X-By"))
	s.write("a.json", namedSource("a", "dept", ""))
	s.write("b.json", namedSource("b", "desk", ""))
	s.write("a.csv", "n,a\nann,x\n")
	s.write("b.csv", "n,a\nann,x\n")
	s.does("a: 1 added", "run", "--by-header", "X-By")
	if told := s.f.must("/edits"); strings.Count(told, `"by":"a"`) != 3 || strings.Count(told, `"by":"b"`) != 2 {
		t.Errorf("edits are told as %s", told)
	}
}

// TestSourceEvery brings a source again and again, with counts, through a time in which it can't be read.
func TestSourceEvery(t *testing.T) {
	listener, err := net.Listen("tcp", "127.0.0.1:0")
	if err != nil {
		t.Fatal(err)
	}
	address := listener.Addr().String()
	listener.Close()
	s := newSourced(t, begin(t, t.TempDir()))
	s.write("a.json", namedSource("a", "dept", ""))
	s.write("a.csv", "n,a\nann,x\nbob,x\n")
	ctx, stop := context.WithCancel(context.Background())
	ended := make(chan int, 1)
	var faults bytes.Buffer
	go func() {
		words := []string{"run", "--front", "http://" + s.f.address, "--every", "50ms", "--metrics", address}
		ended <- source.Run(ctx, append(words, "--at-most", "50%", s.folder), io.Discard, &faults)
	}()
	metrics := func() string {
		answer, err := http.Get("http://" + address + "/metrics")
		if err != nil {
			return ""
		}
		_, told := bodyOf(t, answer)
		return told
	}
	counts := func(want string) func() bool { return func() bool { return strings.Contains(metrics(), want) } }
	eventually(t, "both are counted", counts(`review_source_names{list="people",source="a"} 2`))
	eventually(t, "both were added", counts(`review_source_changes_total{source="a",what="added"} 2`))
	s.write("a.csv", "n,a\nann,x\nbob")
	eventually(t, "it can't be read", func() bool {
		return !strings.Contains(metrics(), `review_source_refused_total{source="a",why="unread"} 0`)
	})
	s.write("a.csv", "n,a\n")
	eventually(t, "it is empty", func() bool {
		return !strings.Contains(metrics(), `review_source_refused_total{source="a",why="excessive"} 0`)
	})
	s.write("a.csv", "n,a\nann,y\n")
	eventually(t, "one has left", counts(`review_source_changes_total{source="a",what="dropped"} 1`))
	if told := s.f.must("/names?list=people"); told != `{"names":["ann"]}` {
		t.Errorf("there are %s", told)
	}
	if !strings.Contains(metrics(), `review_source_age_seconds{source="a"} `) {
		t.Errorf("its age isn't told: %s", metrics())
	}
	stop()
	if status := <-ended; status != 0 {
		t.Errorf("it ends with %d", status)
	}
}
