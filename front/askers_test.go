package main

import (
	"fmt"
	"math/rand"
	"net/http"
	"strconv"
	"strings"
	"sync"
	"sync/atomic"
	"syscall"
	"testing"
	"time"
)

// answer is what came to a request that may ask for at least a serial.
type answer struct {
	status int
	body   string
	serial uint64 // of which it knows
}

// send sends a body with fields of a head, by turns their names and what they say.
func (f *front) send(t testing.TB, method, path, body string, fields ...string) answer {
	t.Helper()
	request, err := http.NewRequest(method, f.url(path), strings.NewReader(body))
	if err != nil {
		t.Fatal(err)
	}
	for i := 0; i+1 < len(fields); i += 2 {
		request.Header.Set(fields[i], fields[i+1])
	}
	got, err := http.DefaultClient.Do(request)
	if err != nil {
		t.Error(err)
		return answer{}
	}
	a := answer{}
	a.status, a.body = bodyOf(t, got)
	a.serial, _ = strconv.ParseUint(got.Header.Get("Review-Serial"), 10, 64)
	return a
}

// decide asks for a decision that knows at least so many edits.
func (f *front) decide(t testing.TB, person, action, resource string, least uint64) answer {
	t.Helper()
	return f.send(t, http.MethodPost, "/authorize", requestOf(person, action, resource),
		"Content-Type", "application/xacml+json", "Review-At-Least", strconv.FormatUint(least, 10))
}

// asking are the numbers of the processes that became askers, in order.
func (f *front) asking() []int {
	var ids []int
	for _, l := range strings.Split(f.log(), "\n") {
		if found := processOf.FindStringSubmatch(l); found != nil && strings.Contains(l, "an asker has its state") {
			id, _ := strconv.Atoi(found[1])
			ids = append(ids, id)
		}
	}
	return ids
}

// askers waits until there are so many.
func (f *front) askers(count float64) {
	f.t.Helper()
	eventually(f.t, "there are askers", func() bool { return f.metric("review_front_askers") == count })
}

// TestOwnEdit edits, and asks for at least that edit: each decision knows of it, and says its serial.
func TestOwnEdit(t *testing.T) {
	f := begin(t, t.TempDir(), "--askers", "2", "--patience", "2s")
	f.accept(clinic(t)...)
	f.askers(2)
	role := `{"do":"attr.set","category":"AccessSubject","entity":"hana","attribute":"role","type":"string","values":[%q]}`
	for i := 0; i < 200; i++ {
		word, want := "trainee", "Deny"
		if i%2 == 0 {
			word, want = "janitor", "NotApplicable"
		}
		edit := f.send(t, http.MethodPost, "/commands/attr.set", fmt.Sprintf(role, word))
		serial, ok := accepted(edit.body)
		if !ok || edit.serial != serial {
			t.Fatalf("an edit is answered %+v", edit)
		}
		got := f.decide(t, "hana", "write", "record-moss", serial)
		if got.status != http.StatusOK || got.serial < serial || !strings.Contains(got.body, `"Decision":"`+want+`"`) {
			t.Fatalf("behind edit %d a request is answered %+v, and was to be %s", serial, got, want)
		}
	}
	serial := uint64(f.metric("review_front_serial"))
	began := time.Now()
	if got := f.decide(t, "hana", "write", "record-moss", serial+1); got.status != http.StatusServiceUnavailable {
		t.Errorf("for an edit that nobody makes it is answered %+v", got)
	}
	if took := time.Since(began); took < 2*time.Second {
		t.Errorf("it was waited for %v", took)
	}
	if got := f.send(t, http.MethodGet, "/counts", "", "Review-At-Least", "many"); got.status != http.StatusBadRequest {
		t.Errorf("many edits are answered %+v", got)
	}
	if got := f.send(t, http.MethodGet, "/counts", "", "Review-At-Least", "1"); got.status != 200 || got.serial != serial {
		t.Errorf("the counts are answered %+v, and not of serial %d", got, serial)
	}
}

// TestAskersKilled kills askers, and now and then the table's program, while clients ask and edit: each request that
// isn't held up by the program is answered as the policies say, and none by what isn't kept.
func TestAskersKilled(t *testing.T) {
	f := begin(t, t.TempDir(), "--askers", "3")
	f.accept(clinic(t)...)
	f.askers(3)
	stop := make(chan struct{})
	var all sync.WaitGroup
	var answers, without atomic.Int64
	for client := 0; client < 16; client++ {
		all.Add(1)
		go func(client int) {
			defer all.Done()
			for i := client; ; i++ {
				select {
				case <-stop:
					return
				default:
				}
				person, want := "ada", "Permit"
				if i%2 == 1 {
					person, want = "hana", "Deny"
				}
				got := f.decide(t, person, "write", "record-moss", 0)
				answers.Add(1)
				if got.status == http.StatusServiceUnavailable {
					without.Add(1)
				} else if got.status != http.StatusOK || !strings.Contains(got.body, `"Decision":"`+want+`"`) {
					t.Errorf("%s is answered %+v", person, got)
					return
				}
			}
		}(client)
	}
	all.Add(1)
	go func() {
		defer all.Done()
		for i := 0; ; i++ {
			select {
			case <-stop:
				return
			default:
				f.send(t, http.MethodPost, "/commands/person.add", fmt.Sprintf(`{"name":"extra-%d"}`, i))
				f.send(t, http.MethodPost, "/commands/attr.set", fmt.Sprintf(
					`{"category":"Resource","entity":"rota","attribute":"note","type":"integer","values":[%d]}`, i))
			}
		}
	}()
	random := rand.New(rand.NewSource(7))
	rounds := number("FRONT_KILLS", 8)
	for round := 0; round < rounds; round++ {
		time.Sleep(time.Duration(random.Intn(200)) * time.Millisecond)
		if round%4 == 3 {
			f.killProgram()
			continue
		}
		ids := f.asking()
		_ = syscall.Kill(ids[len(ids)-1-random.Intn(3)], syscall.SIGKILL)
	}
	f.askers(3)
	close(stop)
	all.Wait()
	if without.Load() > 0 {
		t.Errorf("of %d requests %d had no reply", answers.Load(), without.Load())
	}
	if answers.Load() < 100 {
		t.Errorf("there were %d requests", answers.Load())
	}
	t.Logf("%d requests, %d askers in all", answers.Load(), len(f.asking()))
}

// TestAskersHang has a request take very long: it alone has no reply, and others are answered meanwhile.
func TestAskersHang(t *testing.T) {
	theProgram(t)
	f := begin(t, t.TempDir(), "--askers", "2", "--reply-time", "2s", "--program", faked(t, "busy"))
	f.accept(clinic(t)...)
	f.askers(2)
	hung := make(chan answer)
	// "can" makes the fake work for very long.
	go func() { hung <- f.decide(t, "busy", "can", "record-moss", 0) }()
	time.Sleep(busyTime / 6) // what comes at the same moment may stand behind it
	for others := 0; others < 3; others++ {
		if got := f.decide(t, "ada", "write", "record-moss", 0); got.status != http.StatusOK {
			t.Fatalf("beside it a request is answered %+v", got)
		}
	}
	if got := <-hung; got.status != http.StatusServiceUnavailable {
		t.Errorf("a request that takes very long is answered %+v", got)
	}
	if restarts := f.metric(tooLong); restarts != 0 {
		t.Errorf("the table's program was started anew %v times", restarts)
	}
	f.askers(2)
}

// TestAskerOtherwise has askers refuse an edit that the table's program accepts: they are replaced.
func TestAskerOtherwise(t *testing.T) {
	theProgram(t)
	f := begin(t, t.TempDir(), "--askers", "1", "--program", faked(t, "otherwise"))
	f.accept(clinic(t)...)
	f.askers(1)
	if got := f.decide(t, "ada", "write", "record-moss", 0); !strings.Contains(got.body, `"Decision":"Permit"`) {
		t.Fatalf("a request is answered %+v", got)
	}
	edit := f.send(t, http.MethodPost, "/commands/attr.set", noting("rota", 1))
	serial, ok := accepted(edit.body)
	if !ok {
		t.Fatalf("an edit is answered %+v", edit)
	}
	eventually(t, "another asker is started", func() bool { return len(f.asking()) > 1 })
	if got := f.decide(t, "ada", "write", "record-moss", serial); got.serial < serial || !strings.Contains(got.body, `"Decision":"Permit"`) {
		t.Errorf("behind it a request is answered %+v", got)
	}
}
