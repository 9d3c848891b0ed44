package main

import (
	"fmt"
	"os"
	"path/filepath"
	"strings"
	"testing"
)

// TestSerials sees that serials go on over three starts, in accepted edits, in marks and in what is told to
// listeners.
func TestSerials(t *testing.T) {
	path := t.TempDir()
	f := begin(t, path)
	lines := clinic(t)
	f.accept(lines...)
	// What came and went isn't in a dump, so that the program's own serial is another one after a start.
	f.accept(`{"do":"person.add","name":"extra"}`, `{"do":"person.drop","name":"extra"}`)
	serial := len(lines) + 2
	for round := 0; round < 3; round++ {
		if status := f.stop(); status != 0 {
			t.Fatalf("the front ends with %d:\n%s", status, f.log())
		}
		f = begin(t, path)
		heard := f.listen()
		if e := heard.next(t); e.kind != "from" || e.id != fmt.Sprint(serial) {
			t.Fatalf("round %d: the first event is %v", round, e)
		}
		replies := f.lines(`{"do":"mark"}`, `{"do":"person.add","name":"extra"}`, `{"do":"person.drop","name":"extra"}`, `{"do":"mark"}`)
		for i, want := range []string{
			fmt.Sprintf(`{"mark":%d}`, serial), fmt.Sprintf(`{"changes":60,"serial":%d}`, serial+1),
			fmt.Sprintf(`{"changes":60,"serial":%d}`, serial+2), fmt.Sprintf(`{"mark":%d}`, serial+2),
		} {
			if replies[i] != want {
				t.Errorf("round %d: reply %d is %s, and not %s", round, i, replies[i], want)
			}
		}
		serial += 2
		for e := heard.next(t); e.id != fmt.Sprint(serial); e = heard.next(t) {
			if e.kind != "notices" {
				t.Fatalf("round %d: an event is %v", round, e)
			}
		}
	}
}

// TestTwo starts a second front on a folder, also where what isn't a journal or a snapshot was taken away: it ends at
// once, and the first serves on.
func TestTwo(t *testing.T) {
	path := t.TempDir()
	f := begin(t, path)
	files, err := os.ReadDir(path)
	if err != nil {
		t.Fatal(err)
	}
	for _, file := range files {
		if !strings.Contains(file.Name(), "-") {
			if err := os.Remove(filepath.Join(path, file.Name())); err != nil {
				t.Fatal(err)
			}
		}
	}
	second := launch(t, path)
	if status := second.status(); status != 1 || !strings.Contains(second.log(), "another front has this folder") {
		t.Errorf("the second front ends with %d:\n%s", status, second.log())
	}
	f.accept(`{"do":"person.add","name":"ann"}`)
}

// TestModules starts with fewer modules than a folder was written with: it isn't served.
func TestModules(t *testing.T) {
	path := t.TempDir()
	f := begin(t, path, "--policy-modules", "3")
	f.accept(clinic(t)[0], `{"do":"day.set","day":"2026-03-01"}`)
	if status := f.stop(); status != 0 {
		t.Fatalf("the front ends with %d", status)
	}
	second := launch(t, path)
	if status := second.status(); status != 1 || !strings.Contains(second.log(), "3 of policies") {
		t.Errorf("the front ends with %d:\n%s", status, second.log())
	}
	begin(t, path, "--policy-modules", "4")
}

// TestNoProgram starts with a program that isn't there, and with one that ends at once.
func TestNoProgram(t *testing.T) {
	for _, path := range []string{"/no/such/program", "/bin/false", "/bin/true"} {
		f := launch(t, t.TempDir(), "--program", path)
		if status := f.status(); status != 1 {
			t.Errorf("%s: the front ends with %d", path, status)
		}
	}
}

// TestPlanned exchanges the program after few looks: clients see no fault, marks stay, and evaluations are counted
// on.
func TestPlanned(t *testing.T) {
	f := begin(t, t.TempDir(), "--reads", "1200", "--snapshot-every", "100")
	f.accept(clinic(t)...)
	heard := f.listen()
	heard.next(t)
	s := f.connect("/lines")
	evaluations, changes := int64(0), 0
	for round := 0; round < 400; round++ {
		if reply := s.ask(t, `{"do":"mark","session":3}`); !strings.HasPrefix(reply, `{"mark":`) {
			t.Fatalf("round %d: a mark is answered %s", round, reply)
		}
		edit := `{"do":"person.add","name":"extra"}`
		if round%2 == 1 {
			edit = `{"do":"person.drop","name":"extra"}`
		}
		if _, ok := accepted(s.ask(t, edit)); !ok {
			t.Fatalf("round %d: an edit isn't accepted", round)
		}
		if reply := s.ask(t, `{"do":"notices","session":3}`); strings.Count(reply, `"person":"extra"`) != 60 {
			t.Fatalf("round %d: notices are %.300s", round, reply)
		}
		var now int64
		if _, err := fmt.Sscanf(s.ask(t, `{"do":"work"}`), `{"evaluations":%d}`, &now); err != nil || now < evaluations {
			t.Fatalf("round %d: %d evaluations, and before %d: %v", round, now, evaluations, err)
		}
		evaluations = now
	}
	for changes < 400*60 {
		e := heard.next(t)
		if e.kind != "notices" {
			t.Fatalf("a listener is told %v", e)
		}
		changes += strings.Count(e.data, `"person":"extra"`)
		if strings.HasSuffix(e.id, fmt.Sprint(len(clinic(t))+400)) {
			break
		}
	}
	if got := f.metric(`review_front_restarts_total{why="planned"}`); got < 2 {
		t.Errorf("%v changes are counted", got)
	}
	if got := f.metric(`review_front_restarts_total{why="the program ended"}`); got != 0 {
		t.Errorf("the program ended %v times", got)
	}
}

// TestListenersHearOn sees that who listens hears on when the program has died, and nothing twice.
func TestListenersHearOn(t *testing.T) {
	f := begin(t, t.TempDir())
	f.accept(clinic(t)...)
	heard := f.listen()
	heard.next(t)
	for i := 0; i < 3; i++ {
		name := fmt.Sprintf("extra-%d", i)
		f.accept(fmt.Sprintf(`{"do":"person.add","name":%q}`, name))
		before := len(f.programs())
		f.killProgram()
		e := heard.next(t)
		if e.kind != "notices" || strings.Count(e.data, `"person":"extra-`) != 60 || !strings.Contains(e.data, name) {
			t.Fatalf("a listener is told %v", e)
		}
		f.another(before)
	}
}

// TestComesBackLate has somebody come back who missed many edits while the front was killed, or ended gently, and then
// began anew and told others: what he missed was kept for him.
func TestComesBackLate(t *testing.T) {
	path := t.TempDir()
	f := begin(t, path)
	f.accept(clinic(t)...)
	for round, gently := range []bool{false, true} {
		heard := f.listenBehind("")
		behind := heard.next(t).id
		if gently {
			heard.leave() // else he is told all before the end
			eventually(t, "he has gone", func() bool { return f.metric("review_front_listeners") == 0 })
		}
		lines := []string{fmt.Sprintf(`{"do":"person.add","name":"late-%d"}`, round)}
		for i := 0; i < 700; i++ {
			lines = append(lines, fmt.Sprintf(`{"do":"day.set","day":"2026-03-%02d"}`, 1+i%28))
		}
		f.accept(lines...)
		if !gently {
			f.kill()
		} else if status := f.stop(); status != 0 {
			t.Fatalf("the front ends with %d", status)
		}
		f = begin(t, path)
		f.accept(lines[1])
		f.accept(lines[2])
		again := f.listenBehind(behind)
		e := again.next(t)
		again.leave()
		if e.kind != "notices" || strings.Count(e.data, fmt.Sprintf(`"person":"late-%d"`, round)) != 60 {
			t.Fatalf("who comes back behind serial %s, ended gently %v, is told %s %.300s", behind, gently, e.kind, e.data)
		}
	}
}

// TestMarksStay kills the front, and ends it gently: sessions that marked are there again, with their marks.
func TestMarksStay(t *testing.T) {
	path := t.TempDir()
	f := begin(t, path, "--snapshot-every", "10")
	f.accept(clinic(t)...)
	first, second, ended := f.session(), f.session(), f.session()
	for _, session := range []string{first, ended} {
		if status, body := f.post(session+"/mark", ""); status != 200 {
			t.Fatalf("a mark is %d %s", status, body)
		}
	}
	f.end(ended)
	for round := 0; round < 4; round++ {
		f.accept(fmt.Sprintf(`{"do":"person.add","name":"extra-%d"}`, round))
		if round == 1 {
			f.post(second+"/lines", `{"do":"mark","session":5}`)
		}
		if round%2 == 0 {
			f.kill()
		} else if status := f.stop(); status != 0 {
			t.Fatalf("the front ends with %d", status)
		}
		f = begin(t, path, "--snapshot-every", "10")
		if body := f.must(first + "/notices"); strings.Count(body, `"person":"extra-`) != 60*(round+1) {
			t.Fatalf("round %d: notices are %.300s", round, body)
		}
		if status, _ := f.get(ended + "/notices"); status != 404 {
			t.Errorf("round %d: a session that has ended is answered %d", round, status)
		}
		if round < 1 {
			continue
		}
		_, body := f.post(second+"/lines", `{"do":"notices","session":5}`)
		if strings.Count(body, `"person":"extra-`) != 60*(round-1) {
			t.Fatalf("round %d: notices are %.300s", round, body)
		}
	}
	if status, _ := f.get(second + "/notices"); status != 409 {
		t.Errorf("notices of a number without a mark are %d", status)
	}
}
