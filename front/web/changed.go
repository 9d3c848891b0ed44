package web

import (
	"net/http"
	"strconv"
	"time"

	"review-front/changed"
)

// mostChanges is how many changes one answer tells at most, where they are told by edits or in parts.
const mostChanges = 100_000

// moreChanges has the keys by which more is asked than the question of the program has.
var moreChanges = []key{
	{"until", textOrNot}, {"persons", textList}, {"actions", textList}, {"resources", textList}, {"gained", textOrNot},
	{"lost", textOrNot}, {"by", textOrNot}, {"from", wholeOrNo}, {"count", wholeOrNo},
}

// changedSince tells what changed since a serial. What the program can tell it tells; what it can't, or hasn't any
// more, is told of what is kept on disk.
func (s *Server) changedSince(q question) func(*answered, *http.Request, map[string]string) {
	ask := s.asking(q)
	return func(w *answered, r *http.Request, inPath map[string]string) {
		l, err := q.line(inPath, r.URL.RawQuery)
		given, wrong := queryOf(r.URL.RawQuery, append(q.keys, moreChanges...)...)
		if wrong != nil || err != nil && (len(given["since"]) != 1 || given["since"][0] == "") {
			ask(w, r, inPath) // as it is wrong there
			return
		}
		if err != nil {
			s.changes(w, r, given)
			return
		}
		if !s.mayAll(w, r, l) || !s.stands(w, r) {
			return
		}
		reply := s.Keeper.Report(r.Context(), l)
		if told, refused := problemOf(reply.Body); reply.Err == nil && refused && told.Refused == noMark &&
			s.Keeper.History() != nil {
			s.net(w, r, given, changeFilter{}, true)
			return
		}
		sendReply(w, reply)
	}
}

// noMark is the number of the refusal of what the program doesn't know any more.
const noMark = 12

// changeFilter is which changes are asked for.
type changeFilter struct {
	wanted
	gained, lost changed.Decision
}

// filterOf reads it in a query.
func filterOf(q query) (f changeFilter, err error) {
	f.persons, f.actions, f.resources = names(q["persons"]), names(q["actions"]), names(q["resources"])
	for key, to := range map[string]*changed.Decision{"gained": &f.gained, "lost": &f.lost} {
		word, wrong := q.one(key)
		decision, known := changed.ReadDecision(word)
		if wrong == nil && !known {
			wrong = &badValue{key: key, is: "a decision"}
		}
		if wrong != nil {
			err = wrong
		}
		*to = decision
	}
	return f, err
}

// badValue says that what stands at a key isn't what has to stand there.
type badValue struct{ key, is string }

func (b *badValue) Error() string { return b.key + " isn't " + b.is }

// names says whether a request is one of those that are asked for.
func (f changeFilter) names(c changed.Change) bool {
	return f.persons.have(changed.Plain(c.Person)) && f.actions.have(changed.Plain(c.Action)) &&
		f.resources.have(changed.Plain(c.Resource))
}

// decides says whether another decision is one that is asked for: gained, or lost, where that is said.
func (f changeFilter) decides(before, after changed.Decision) bool {
	if f.gained == changed.None && f.lost == changed.None {
		return true
	}
	return before != after &&
		(f.gained != changed.None && after == f.gained || f.lost != changed.None && before == f.lost)
}

// changes tells what changed between two serials, days or moments: by edits, or all of them together.
func (s *Server) changes(w *answered, r *http.Request, q query) {
	if !s.mayAll(w, r, []byte(`{"do":"changes","since":0}`)) {
		return
	}
	filter, err := filterOf(q)
	by := ""
	if err == nil {
		by, err = q.one("by")
	}
	if err == nil && by != "" && by != "edit" {
		err = &badValue{key: "by", is: "edit"}
	}
	if err != nil {
		bad(err.Error()).send(w)
		return
	}
	if by == "" {
		s.net(w, r, q, filter, len(q["from"]) == 0 && len(q["count"]) == 0)
		return
	}
	asked, ok := s.spanOf(w, r, q, mostChanges)
	if !ok {
		return
	}
	list := &byEdit{filter: filter, asked: asked}
	missing, err := s.Keeper.History().Edits(asked.since, asked.until, list.add)
	if err != nil && err != errEnough {
		problemFor(err).send(w)
		return
	}
	body := append(append([]byte(`{"changes":[`), list.told...), `],"more":`...)
	body = strconv.AppendUint(append(strconv.AppendBool(body, list.more), `,"serial":`...), asked.until, 10)
	tellSerial(w, asked.until)
	sendJSON(w, append(appendUnknown(body, append(missing, list.unknown...)), '}'))
}

// byEdit is what edits changed, one below the other.
type byEdit struct {
	filter  changeFilter
	asked   span
	seen    int
	count   int
	more    bool
	told    []byte
	unknown []changed.Range
}

// add tells what an edit changed, as far as it is asked for.
func (l *byEdit) add(e *changed.Edit) error {
	if !e.Known {
		l.unknown = append(l.unknown, changed.Range{After: e.Serial - 1, Last: e.Serial})
		return nil
	}
	by := `,"by":` + quoted(e.By)
	made := `,"serial":` + strconv.FormatUint(e.Serial, 10) + `,"time":"` + e.Time.Format(time.RFC3339Nano) + `"`
	return e.Each(func(c changed.Change) error {
		if !l.filter.decides(c.Before, c.After) || !l.filter.names(c) {
			return nil
		}
		if l.seen++; l.seen <= l.asked.from {
			return nil
		}
		if l.count == l.asked.count {
			l.more = true
			return errEnough
		}
		if l.count++; l.count > 1 {
			l.told = append(l.told, ',')
		}
		l.told = c.Append(l.told, by, made)
		return nil
	})
}
