package scim

import (
	"fmt"
	"os"
	"strconv"
	"syscall"
	"testing"
	"time"
)

// spent is how much time of a processor this process has taken.
func spent(t *testing.T) time.Duration {
	t.Helper()
	var used syscall.Rusage
	if err := syscall.Getrusage(syscall.RUSAGE_SELF, &used); err != nil {
		t.Fatal(err)
	}
	return time.Duration(used.Utime.Nano() + used.Stime.Nano())
}

// TestManyResources lists and changes many users (SCIM_MANY says how many), and logs the best of some times of each, of a
// processor: by the clock a busy machine takes longer.
func TestManyResources(t *testing.T) {
	count, err := strconv.Atoi(os.Getenv("SCIM_MANY"))
	if err != nil {
		count = 2000
	}
	kinds, table := NewKinds(), NewTable("")
	for i := 0; i < count; i++ {
		d := table.Draft(kinds.User, nil)
		err := d.Whole(map[string]any{
			"userName": fmt.Sprintf("u%05d", i), "displayName": fmt.Sprintf("User %d", i), "active": true,
			"name": map[string]any{"givenName": fmt.Sprintf("G%d", i%100), "familyName": fmt.Sprintf("F%d", i%1000)},
		})
		if err != nil {
			t.Fatal(err)
		}
		apply(t, table, d, fmt.Sprintf("id%d", i), nil)
	}
	group := table.Draft(kinds.Group, nil)
	var members []any
	for i := 0; i < count; i++ {
		members = append(members, map[string]any{"value": fmt.Sprintf("id%d", i)})
	}
	if err := group.Whole(map[string]any{"displayName": "all", "members": members}); err != nil {
		t.Fatal(err)
	}
	apply(t, table, group, "group", nil)
	best := func(what string, do func()) {
		best := time.Hour
		for try := 0; try < 7; try++ {
			began := spent(t)
			do()
			if took := spent(t) - began; took < best {
				best = took
			}
		}
		t.Logf("%s: %v", what, best.Round(10*time.Microsecond))
	}
	list := func(q Query, total int) func() {
		q.Kinds, q.Count = []*Kind{kinds.User}, 100
		if q.Start == 0 {
			q.Start = 1
		}
		return func() {
			page, err := table.Ask(kinds, q, "http://x")
			if err != nil || page.Total != total {
				t.Fatal(page, err)
			}
			for _, v := range page.Views {
				v.Tell(Asked{})
			}
		}
	}
	best("the first page", list(Query{}, count))
	best("a page in the middle", list(Query{Start: count / 2}, count))
	best("one by its name", list(Query{Filter: `userName eq "U00007"`}, 1))
	best("by a part of a name", list(Query{Filter: `name.familyName eq "f77"`}, count/1000))
	best("by and, or and not", list(Query{
		Filter: `not (active eq false) and (displayName co "user" or name.givenName sw "g4")`,
	}, count))
	best("sorted", list(Query{SortBy: "name.familyName"}, count))
	round := 0
	change := func(kind *Kind, id string, body func() map[string]any) func() {
		return func() {
			round++
			from := table.Find(kind.Name, id)
			d := table.Draft(kind, from)
			if err := d.Patch(body()); err != nil {
				t.Fatal(err)
			}
			apply(t, table, d, id, from)
			table.Touched()
		}
	}
	best("a change", change(kinds.User, "id7", func() map[string]any {
		op := map[string]any{"op": "replace", "path": "title", "value": fmt.Sprint(round)}
		return map[string]any{"Operations": []any{op}}
	}))
	best("a member of a large group", change(kinds.Group, "group", func() map[string]any {
		op := map[string]any{"op": "remove", "path": `members[value eq "id9"]`}
		if !table.isMember("group", "id9") {
			op = map[string]any{"op": "add", "path": "members", "value": "id9"}
		}
		return map[string]any{"Operations": []any{op}}
	}))
	best("all lines of a snapshot", func() {
		if _, err := table.Lines(); err != nil {
			t.Fatal(err)
		}
	})
}
