package main

import (
	"fmt"
	"strings"
	"testing"
)

// TestLogMarks marks and listens at fronts of one stream in which refused edits have serials too: what changed since each
// serial is told by both, also to who heard the other front, and marks outlive a front.
func TestLogMarks(t *testing.T) {
	const first, edits = 69, 5
	servers := natsServers(t, 1)
	fronts := replicas(t, servers, 2)
	fronts[0].accept(clinic(t)...)
	session := fronts[0].session()
	if status, body := fronts[0].post(session+"/mark", ""); body != fmt.Sprintf(`{"mark":%d}`, first) {
		t.Fatalf("a mark is answered %d %s", status, body)
	}
	eventually(t, "the other has the edits", func() bool { return fronts[1].serial("/counts", nil) == fmt.Sprint(first) })
	fronts[1].listen().next(t)
	for i := 0; i < edits; i++ {
		l := fmt.Sprintf(`{"do":"person.add","name":"extra-%d"}`, i)
		if replies := fronts[i%2].lines(l, l); !strings.HasPrefix(replies[1], `{"refused"`) {
			t.Fatalf("the same edit again is answered %s", replies[1])
		}
	}
	const last = first + 2*edits - 1
	for i, f := range fronts {
		eventually(t, "both have all", func() bool { return f.serial("/counts", nil) == fmt.Sprint(last) })
		for since := first; since <= last+1; since++ {
			said := f.lines(fmt.Sprintf(`{"do":"changes","since":%d}`, since))[0]
			want := 60 * ((last - since + 1) / 2)
			if since > last {
				if said != unmarked {
					t.Errorf("front %d: changes since serial %d are %.200s", i, since, said)
				}
			} else if strings.Count(said, `"person":"extra-`) != want || !strings.HasSuffix(said, fmt.Sprintf(`,"serial":%d}`, last)) {
				t.Errorf("front %d: changes since serial %d aren't of %d: %.200s", i, since, want, said)
			}
		}
	}
	fronts[0].kill()
	fronts[0] = replica(t, fronts[0].folder, logOf(servers))
	fronts[0].await()
	if said := fronts[0].must(session + "/notices"); strings.Count(said, `"person":"extra-`) != 60*edits {
		t.Errorf("notices are %.200s", said)
	}
	e := fronts[0].listenBehind(fmt.Sprint(first + 3)).next(t) // as the other front might have told it
	if e.kind != "notices" || e.id != fmt.Sprint(last) || strings.Count(e.data, `"person":"extra-`) != 60*(edits-2) {
		t.Errorf("who comes from the other front is told %s %s %.200s", e.kind, e.id, e.data)
	}
}
