package main

import (
	"fmt"
	"math/rand"
	"net/http"
	"strconv"
	"strings"
	"sync"
	"syscall"
	"testing"
	"time"

	"review-front/folder"
)

// noting is a line that sets a number of an entity.
func noting(entity string, number int) string {
	return fmt.Sprintf(`{"do":"attr.set","category":"Resource","entity":%q,"attribute":"n","type":"integer","values":[%d]}`,
		entity, number)
}

// spares are the numbers of the processes that became spare programs, in order.
func (f *front) spares() []int {
	var ids []int
	for _, l := range strings.Split(f.log(), "\n") {
		if found := processOf.FindStringSubmatch(l); found != nil && strings.Contains(l, "a spare program has the state") {
			id, _ := strconv.Atoi(found[1])
			ids = append(ids, id)
		}
	}
	return ids
}

// TestTried edits by a line that takes very long: it is refused with what it took, reaches neither the table's program
// nor the journal, holds up no question, and edits behind it are made once there is a spare program again.
func TestTried(t *testing.T) {
	theProgram(t)
	path := t.TempDir()
	f := begin(t, path, "--try-time", "1s", "--patience", "1m", "--program", faked(t, "busy"))
	f.accept(clinic(t)...)
	serial := f.metric("review_front_serial")
	refused := make(chan answer)
	go func() { refused <- f.send(t, http.MethodPost, "/lines", noting("busy", 1)+"\n"+noting("rota", 2)+"\n") }()
	for i := 0; i < 3; i++ {
		if got := f.decide(t, "ada", "write", "record-moss", 0); got.status != http.StatusOK {
			t.Errorf("beside it a request is answered %+v", got)
		}
	}
	got := <-refused
	replies := strings.Split(got.body, "\n")
	if got.status != http.StatusOK || len(replies) != 2 || !strings.Contains(replies[0], `"status":422`) ||
		!strings.Contains(replies[0], "it took a spare program more than 1") {
		t.Errorf("it is answered %+v", got)
	}
	if now, ok := accepted(replies[1]); !ok || float64(now) != serial+1 {
		t.Errorf("the edit behind it is answered %s", replies[1])
	}
	if got := f.send(t, http.MethodPost, "/commands/attr.set", noting("busy", 1)); got.status != 422 {
		t.Errorf("alone it is answered %+v", got)
	}
	journalled := map[uint64]folder.Entry{}
	newTwin(t).follow(path, journalled)
	for _, entry := range journalled {
		if strings.Contains(string(entry.Line), "busy") {
			t.Errorf("the journal has %s", entry.Line)
		}
	}
	if restarts := f.metric(tooLong); restarts != 0 {
		t.Errorf("the table's program was started anew %v times", restarts)
	}
	if len(f.programs()) != 1 || len(f.spares()) < 2 {
		t.Errorf("there were the programs %v, and the spare ones %v", f.programs(), f.spares())
	}
}

// TestSpareKilled kills spare programs, askers and the table's program while clients edit: what was acknowledged is
// there, and the table is that of the journal.
func TestSpareKilled(t *testing.T) {
	path := t.TempDir()
	f := begin(t, path, "--try-time", "1m", "--askers", "1", "--snapshot-every", "500")
	f.accept(clinic(t)...)
	known := &acknowledged{edits: map[uint64]string{}}
	stop, over := make(chan struct{}), make(chan struct{})
	go func() {
		defer close(over)
		crowd(t, f, 0, known, stop)
	}()
	random, kills := rand.New(rand.NewSource(3)), 0
	for round := 0; round < number("FRONT_KILLS", 8); round++ {
		time.Sleep(time.Duration(random.Intn(200)) * time.Millisecond)
		if round%4 == 3 {
			f.killProgram()
			continue
		}
		kills++
		eventually(t, "there is another spare program", func() bool { return len(f.spares()) >= kills })
		ids := f.spares()
		_ = syscall.Kill(ids[len(ids)-1], syscall.SIGKILL)
	}
	close(stop)
	<-over
	journalled, w := map[uint64]folder.Entry{}, newTwin(t)
	w.follow(path, journalled)
	known.in(t, journalled)
	w.same(f)
	f.accept(noting("last", 1))
	t.Logf("%d edits, %d spare programs", len(journalled), len(f.spares()))
}

// TestTwoEditors has several editors count in a row: each reads the number, and sets the next one behind the edit that he
// knows of. What one set no other overwrites.
func TestTwoEditors(t *testing.T) {
	for _, more := range [][]string{nil, {"--try-time", "1m"}} {
		f := begin(t, t.TempDir(), more...)
		f.accept(noting("row", 0))
		each := number("FRONT_EDITS", 150)
		var all sync.WaitGroup
		var others sync.Mutex
		late := 0
		for editor := 0; editor < 2; editor++ {
			all.Add(1)
			go func() {
				defer all.Done()
				for made := 0; made < each; {
					read := f.send(t, http.MethodGet, "/attributes?category=Resource&entity=row", "")
					_, written, _ := strings.Cut(read.body, `"values":[`)
					now, err := strconv.Atoi(strings.TrimSuffix(written, "]}]}"))
					if err != nil {
						t.Errorf("the row is %+v", read)
						return
					}
					got := f.send(t, http.MethodPost, "/commands/attr.set", noting("row", now+1),
						"If-Match", fmt.Sprintf("%q", strconv.FormatUint(read.serial, 10)))
					switch got.status {
					case http.StatusOK:
						made++
					case http.StatusPreconditionFailed:
						others.Lock()
						late++
						others.Unlock()
					default:
						t.Errorf("an edit is answered %+v", got)
						return
					}
				}
			}()
		}
		all.Wait()
		if row := f.must("/attributes?category=Resource&entity=row"); !strings.Contains(row, fmt.Sprintf(`"values":[%d]`, 2*each)) {
			t.Errorf("of %d edits the last gives %s", 2*each, row)
		}
		if late == 0 {
			t.Error("no editor came too late")
		}
		t.Logf("%d edits, %d that came too late", 2*each, late)
		f.kill()
	}
}

// TestMatches sends `If-Match` as it can't be taken.
func TestMatches(t *testing.T) {
	f := begin(t, t.TempDir())
	f.accept(noting("row", 0))
	for _, one := range []struct {
		path, body, match string
		status            int
	}{
		{"/commands/attr.set", noting("row", 1), "0", 412},
		{"/commands/attr.set", noting("row", 1), "2", 412},
		{"/commands/attr.set", noting("row", 1), "W/x", 400},
		{"/commands/attr.set", noting("row", 1), "*", 400},
		{"/commands/counts", "", "1", 400},
		{"/lines", noting("row", 1), "1", 400},
		{"/lines?whole=1", noting("row", 1), "0", 412},
		{"/commands/attr.set", noting("row", 1), "1", 200},
		{"/lines?whole=1", noting("row", 2), `"2"`, 200},
	} {
		if got := f.send(t, http.MethodPost, one.path, one.body, "If-Match", one.match); got.status != one.status {
			t.Errorf("%s with If-Match: %s is answered %+v, and not by %d", one.path, one.match, got, one.status)
		}
	}
}
