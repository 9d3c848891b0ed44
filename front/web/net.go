package web

import (
	"context"
	"errors"
	"fmt"
	"net/http"
	"sort"
	"strconv"
	"strings"
	"time"

	"review-front/changed"
	"review-front/keeper"
	"review-front/line"
)

// request is one of the table, by the numbers of its names.
type request struct{ person, action, resource uint32 }

// between is what became of a request between two serials.
type between struct {
	before, after changed.Decision
	again         bool // more than one edit changed it
}

// differences are what changed between two serials, all edits together.
type differences struct {
	filter  changeFilter
	numbers map[string]uint32
	names   []string
	all     map[request]between
	unknown []changed.Range
}

// number is that of a name.
func (n *differences) number(name string) uint32 {
	number, there := n.numbers[name]
	if !there {
		number = uint32(len(n.names))
		n.numbers[name] = number
		n.names = append(n.names, name)
	}
	return number
}

// add adds what an edit changed.
func (n *differences) add(e *changed.Edit) error {
	if !e.Known {
		n.unknown = append(n.unknown, changed.Range{After: e.Serial - 1, Last: e.Serial})
	}
	return e.Each(func(c changed.Change) error {
		if !n.filter.names(c) {
			return nil
		}
		of := request{n.number(c.Person), n.number(c.Action), n.number(c.Resource)}
		now, there := n.all[of]
		if there {
			now.again = true
		} else {
			now.before = c.Before
		}
		now.after = c.After
		n.all[of] = now
		return nil
	})
}

// differing gives the requests whose decision is another, or which one edit alone changed, and beside them those that
// came back to their decision, of which it isn't known by that whether they came back to their answer.
func (n *differences) differing() (sure, back []request) {
	for of, became := range n.all {
		switch {
		case !n.filter.decides(became.before, became.after):
		case became.before != became.after || !became.again:
			sure = append(sure, of)
		case became.before != changed.None:
			back = append(back, of)
		}
	}
	return sure, back
}

// sort has requests stand in the order in which the program tells them.
func (n *differences) sort(some []request) {
	plain := make([]string, len(n.names))
	for i, name := range n.names {
		plain[i] = changed.Plain(name)
	}
	sort.Slice(some, func(i, j int) bool {
		a, b := some[i], some[j]
		switch {
		case a.person != b.person:
			return plain[a.person] < plain[b.person]
		case a.action != b.action:
			return plain[a.action] < plain[b.action]
		}
		return plain[a.resource] < plain[b.resource]
	})
}

// change is a request with what became of it.
func (n *differences) change(of request) changed.Change {
	became := n.all[of]
	return changed.Change{
		Person: n.names[of.person], Action: n.names[of.action], Resource: n.names[of.resource],
		Before: became.before, After: became.after,
	}
}

// unlearned is the problem of what isn't known any more.
func unlearned(missing []changed.Range) problem {
	var serials []string
	for _, one := range missing {
		serials = append(serials, fmt.Sprintf("%d to %d", one.After+1, one.Last))
	}
	return problem{
		Title: "not known any more", Status: http.StatusGone,
		Detail: "it isn't known what the edits of serials " + strings.Join(serials, ", ") + " changed",
	}
}

// net tells what changed between two serials, in the form of the program's own answer; where it is asked for in parts
// also whether there is more.
func (s *Server) net(w *answered, r *http.Request, q query, filter changeFilter, whole bool) {
	asked, ok := s.spanOf(w, r, q, mostChanges)
	if !ok {
		return
	}
	n, all, told := s.between(r.Context(), asked, filter)
	if told != nil {
		told.send(w)
		return
	}
	more := false
	if !whole {
		all, more = part(all, asked)
	}
	body := n.list([]byte(`{"changes":[`), all)
	if !whole {
		body = strconv.AppendBool(append(body, `,"more":`...), more)
	}
	tellSerial(w, asked.until)
	sendJSON(w, append(strconv.AppendUint(append(body, `,"serial":`...), asked.until, 10), '}'))
}

// between is what changed between two serials, and the requests of which that is to be told, in their order.
func (s *Server) between(ctx context.Context, asked span, filter changeFilter) (*differences, []request, *problem) {
	select {
	case s.summing <- struct{}{}: // one at a time: it has a table's size
	case <-ctx.Done():
		told := problemFor(ctx.Err())
		return nil, nil, &told
	}
	defer func() { <-s.summing }()
	n := &differences{filter: filter, numbers: map[string]uint32{}, all: map[request]between{}}
	missing, err := s.Keeper.History().Edits(asked.since, asked.until, n.add)
	if err != nil {
		told := problemFor(err)
		return nil, nil, &told
	}
	if missing = append(missing, n.unknown...); len(missing) > 0 {
		told := unlearned(missing)
		return nil, nil, &told
	}
	sure, back := n.differing()
	other, told := s.otherwise(ctx, asked, n, back)
	if told != nil {
		return nil, nil, told
	}
	all := append(sure, other...)
	n.sort(all)
	return n, all, nil
}

// list appends what became of requests, and the end of the list.
func (n *differences) list(to []byte, all []request) []byte {
	for i, of := range all {
		if i > 0 {
			to = append(to, ',')
		}
		to = n.change(of).Append(to, "", "")
	}
	return append(to, ']')
}

// fromDisk is the reply to a question of what changed, told of what is kept on disk where the program has it no more.
// Where that isn't known either it is false, and the reply the program's.
func (s *Server) fromDisk(ctx context.Context, call *keeper.Call, reply keeper.Reply) (keeper.Reply, bool) {
	since, notices, missed := call.Missed(reply)
	if !missed || s.Keeper.History() == nil {
		return reply, !missed
	}
	asked := span{since: since, until: reply.Serial}
	s.Keeper.Learned(ctx, asked.until)
	n, all, told := s.between(ctx, asked, changeFilter{})
	if told != nil {
		return reply, false
	}
	if notices {
		reply.Body = append(n.list([]byte(`{"notices":[`), all), '}')
	} else {
		body := append(n.list([]byte(`{"changes":[`), all), `,"serial":`...)
		reply.Body = append(strconv.AppendUint(body, asked.until, 10), '}')
	}
	return reply, true
}

// forgotten says that it isn't known any more what changed since a serial.
type forgotten struct{ since uint64 }

func (f *forgotten) Error() string {
	return fmt.Sprintf("what changed since serial %d isn't known any more: mark again, and read the table anew", f.since)
}

// sent sends a call, and gives its reply.
func (s *Server) sent(ctx context.Context, call *keeper.Call) keeper.Reply {
	reply, known := s.fromDisk(ctx, call, s.Keeper.Send(ctx, call))
	if !known {
		since, _, _ := call.Missed(reply)
		reply.Err = &forgotten{since}
	}
	return reply
}

// problemOfPast is the problem of what isn't known of earlier states.
func problemOfPast(err error) (problem, bool) {
	var gone *keeper.Gone
	var other *keeper.OtherProgram
	var lost *forgotten
	switch {
	case errors.As(err, &gone):
		return problem{Title: "not known any more", Status: http.StatusGone, Detail: err.Error()}, true
	case errors.As(err, &other):
		return problem{Title: "the program answers otherwise", Status: http.StatusConflict, Detail: err.Error()}, true
	case errors.As(err, &lost):
		told, _ := problemOf([]byte(line.NoMark))
		told.Detail = err.Error()
		return told, true
	}
	return problem{}, false
}

// ended is the problem of a session that isn't there: it ended, and when, where that is known.
func (s *Server) ended(name string) problem {
	told := noSession()
	if at, known := s.Keeper.Marks.Ended(name); known {
		told.Detail = "it ended at " + at.Format(time.RFC3339)
	}
	return told
}

// part is a part of some requests, and whether there are more behind it.
func part(all []request, asked span) ([]request, bool) {
	if asked.from >= len(all) {
		return nil, false
	}
	all = all[asked.from:]
	if len(all) > asked.count {
		return all[:asked.count], true
	}
	return all, false
}
