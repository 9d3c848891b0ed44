package web

import (
	"errors"
	"net/http"
	"strconv"
	"time"

	"review-front/changed"
)

const (
	mostEdits = 1000
	// changedEach is how many requests are told of one edit, and changedAll of all of one answer; the bytes of lines are
	// those behind which it ends, too.
	changedEach = 1000
	changedAll  = 10_000
	linesAll    = 4 << 20
)

// editsKeys has the keys of a query of edits.
var editsKeys = []key{
	{"since", textOrNot}, {"until", textOrNot}, {"from", wholeOrNo}, {"count", wholeOrNo}, {"by", textList},
	{"kind", textList}, {"entity", textList},
}

// errEnough ends what an answer tells.
var errEnough = errors.New("the answer has its part")

// edits tells edits: who made each and when, its line, and what it changed.
func (s *Server) edits(w *answered, r *http.Request, _ map[string]string) {
	q, err := queryOf(r.URL.RawQuery, editsKeys...)
	if err != nil {
		bad(err.Error()).send(w)
		return
	}
	asked, ok := s.spanOf(w, r, q, mostEdits)
	if !ok {
		return
	}
	p := &page{server: s, asked: asked, by: names(q["by"]), kind: names(q["kind"]), entity: names(q["entity"])}
	missing, err := s.Keeper.History().Edits(asked.since, asked.until, p.add)
	if err != nil && err != errEnough {
		problemFor(err).send(w)
		return
	}
	body := append(append([]byte(`{"edits":[`), p.told...), `],"more":`...)
	body = append(strconv.AppendBool(body, p.more), `,"serial":`...)
	body = appendUnknown(strconv.AppendUint(body, asked.until, 10), missing)
	tellSerial(w, asked.until)
	sendJSON(w, append(body, '}'))
}

// page is a part of some edits.
type page struct {
	server           *Server
	asked            span
	by, kind, entity names
	seen, count      int
	changes, lines   int
	more             bool
	told             []byte
	serial           uint64 // that of the last edit that came, and the how many of it this is: several may have one
	nth              int
}

// add tells an edit, if it is one of those that are asked for.
func (p *page) add(e *changed.Edit) error {
	if p.nth++; e.Serial != p.serial {
		p.serial, p.nth = e.Serial, 1
	}
	if !p.by.have(e.By) || !p.kind.have(e.Do) || !p.entity.have(e.Entity) {
		return nil
	}
	if p.seen++; p.seen <= p.asked.from {
		return nil
	}
	if p.count >= p.asked.count || p.changes >= changedAll || p.lines >= linesAll {
		p.more = true
		return errEnough
	}
	if p.count++; p.count > 1 {
		p.told = append(p.told, ',')
	}
	return p.one(e)
}

// one writes an edit.
func (p *page) one(e *changed.Edit) error {
	to := append(p.told, `{"by":`+quoted(e.By)+`,"changed":`...)
	told := uint64(0)
	if e.Known {
		to = append(to, '[')
		err := e.Each(func(c changed.Change) error {
			if told == changedEach {
				return errEnough
			}
			if told++; told > 1 {
				to = append(to, ',')
			}
			to = c.Append(to, "", "")
			return nil
		})
		if err != nil && err != errEnough {
			return err
		}
		to = append(to, ']')
	} else {
		to = append(to, "null"...)
	}
	to = strconv.AppendUint(append(to, `,"changes":`...), e.Count, 10)
	to = append(to, `,"entity":`+quoted(e.Entity)+`,"kind":`+quoted(e.Do)+`,"line":`...)
	line := p.line(e)
	to = append(to, line...)
	to = strconv.AppendUint(append(to, `,"more":`...), e.Count-told, 10)
	to = strconv.AppendUint(append(to, `,"serial":`...), e.Serial, 10)
	p.told = append(to, `,"time":"`+e.Time.Format(time.RFC3339Nano)+`"}`...)
	p.changes += int(told)
	p.lines += len(line)
	return nil
}

// line is the line of an edit, or null where the journals have it no more.
func (p *page) line(e *changed.Edit) []byte {
	entries, err := p.server.Keeper.Folder.At(e.Journal, e.Byte)
	nth := 0
	for _, entry := range entries {
		if entry.Serial == e.Serial {
			nth++
		}
		if err == nil && nth == p.nth && entry.Time.Equal(e.Time) {
			return entry.Line
		}
	}
	return []byte("null")
}
