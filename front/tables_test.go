package main

import (
	"bytes"
	"encoding/json"
	"sort"
	"testing"
)

// listed is a request that is listed, and its answer as the program wrote it.
type listed struct {
	Person, Action, Resource string
	Decision                 string
	answer                   string
}

// before says whether a request stands before another one in the order of notices.
func (c listed) before(other listed) bool {
	if c.Person != other.Person {
		return c.Person < other.Person
	}
	if c.Action != other.Action {
		return c.Action < other.Action
	}
	return c.Resource < other.Resource
}

// noticed is a notice, as the program writes it.
type noticed struct {
	Action   string  `json:"action"`
	After    *string `json:"after"`
	Before   *string `json:"before"`
	Person   string  `json:"person"`
	Resource string  `json:"resource"`
}

// notice is what is told of a request with its decisions before and after; none where it wasn't listed.
func (c listed) notice(before, after *string) noticed {
	return noticed{Action: c.Action, After: after, Before: before, Person: c.Person, Resource: c.Resource}
}

// tables are those of some serials.
type tables struct {
	t     testing.TB
	known map[uint64][]listed
	cells map[string]listed // each that was read, by how it is written
}

func newTables(t testing.TB) *tables {
	return &tables{t: t, known: map[uint64][]listed{}, cells: map[string]listed{}}
}

// add reads the reply to `table` at a serial.
func (all *tables) add(serial uint64, reply string) {
	all.t.Helper()
	var told struct{ Table []json.RawMessage }
	if err := json.Unmarshal([]byte(reply), &told); err != nil {
		all.t.Fatalf("a table: %v: %.200s", err, reply)
	}
	cells := make([]listed, len(told.Table))
	for i, raw := range told.Table {
		cell, there := all.cells[string(raw)]
		if !there {
			if err := json.Unmarshal(raw, &cell); err != nil {
				all.t.Fatal(err)
			}
			cell.answer = string(raw)
			all.cells[cell.answer] = cell
		}
		cells[i] = cell
	}
	sort.Slice(cells, func(i, j int) bool { return cells[i].before(cells[j]) })
	all.known[serial] = cells
}

// between is the notices between two tables: each request whose answers differ, in byte order.
func (all *tables) between(from, to uint64) string {
	all.t.Helper()
	old, there := all.known[from]
	now, here := all.known[to]
	if !there || !here {
		all.t.Fatalf("the tables of serials %d and %d aren't both known", from, to)
	}
	var told bytes.Buffer
	told.WriteString(`{"notices":[`)
	for len(old) > 0 || len(now) > 0 {
		var one noticed
		switch {
		case len(now) == 0 || len(old) > 0 && old[0].before(now[0]):
			one, old = old[0].notice(&old[0].Decision, nil), old[1:]
		case len(old) == 0 || now[0].before(old[0]):
			one, now = now[0].notice(nil, &now[0].Decision), now[1:]
		default:
			same := old[0].answer == now[0].answer
			one = now[0].notice(&old[0].Decision, &now[0].Decision)
			if old, now = old[1:], now[1:]; same {
				continue
			}
		}
		notice, err := json.Marshal(one)
		if err != nil {
			all.t.Fatal(err)
		}
		if told.Bytes()[told.Len()-1] == '}' {
			told.WriteByte(',')
		}
		told.Write(notice)
	}
	told.WriteString("]}")
	return told.String()
}
