package web

import (
	"bytes"
	"encoding/json"
	"fmt"
	"net/http"
	"sort"
	"strconv"
	"strings"

	"review-front/keeper"
	"review-front/line"
)

// countField is the field behind an answer that tells what became of its lines.
const countField = "Review-Count"

// problemBegins is how a problem in the place of a reply begins, as no reply does.
var problemBegins = []byte(`{"title":`)

// tally counts what became of the lines of a body, and says of those that were refused why, if that is asked for.
type tally struct {
	how      how
	server   *Server
	by       string
	accepted int
	answered int         // the questions among them
	refused  map[int]int // by number
	untaken  int         // those that have a problem in the place of a reply
	lines    int         // how many the body has, if it was read whole
	unread   bool        // more came that wasn't read
	wrong    *problem    // of the first that was neither accepted nor answered
	reasons  reasons
}

func (s *Server) newTally(how how, by string) *tally {
	return &tally{how: how, server: s, by: by, refused: map[int]int{}, reasons: reasons{server: s}}
}

// see counts a reply, or the problem in its place, and has it say why it is refused; that is logged too.
func (t *tally) see(l []byte, reply *keeper.Reply, told *problem) {
	if t != nil {
		t.server.refuses(t.by, l, reply.Body)
		t.sees(l, reply, told)
	}
}

// sees counts a reply, and has it say why it is refused.
func (t *tally) sees(l []byte, reply *keeper.Reply, told *problem) {
	number, sub, isRefusal := line.ReadRefusal(reply.Body)
	_, isAccepted := line.ReadAccepted(reply.Body)
	switch {
	case isAccepted:
		t.accepted++
	case isRefusal:
		t.refused[number]++
		wrong, _ := problemOf(reply.Body)
		t.fails(&wrong)
		if t.how.words {
			reply.Body = because(reply.Body, t.reasons.why(line.Command(l), number, sub))
		}
	case bytes.HasPrefix(reply.Body, problemBegins):
		t.untaken++
		if told == nil {
			told = &problem{}
			_ = json.Unmarshal(reply.Body, told) // the front wrote it itself
		}
		t.fails(told)
	default:
		t.answered++
	}
}

// fails keeps why the first of the lines failed that did.
func (t *tally) fails(wrong *problem) {
	if t.wrong == nil {
		t.wrong = wrong
	}
}

// because is a refusal that says why.
func because(refusal []byte, why string) []byte {
	return append(append(append([]byte(nil), refusal[:len(refusal)-1]...), `,"why":`+quoted(why)...), '}')
}

// ends says how many lines a body has that was read whole, whether or not each came to its turn.
func (t *tally) ends(lines int) {
	seen := t.accepted + t.answered + t.untaken
	for _, count := range t.refused {
		seen += count
	}
	if lines > seen {
		t.untaken += lines - seen
	}
}

// status is that of an answer which isn't 200 unless each line was accepted, or answered: where none was accepted that
// of the first that failed, and else one by which nobody sends all of it again.
func (t *tally) status() int {
	switch {
	case t.wrong == nil:
		return http.StatusOK
	case t.accepted == 0:
		return t.wrong.Status
	}
	return http.StatusConflict
}

// head begins an answer of which the count knows the status.
func (t *tally) head(w http.ResponseWriter) {
	w.Header().Set("Content-Type", linesType)
	if !t.how.strict || t.wrong == nil {
		return
	}
	wrong := *t.wrong
	if wrong.Status = t.status(); wrong.Status != http.StatusServiceUnavailable {
		wrong.after = 0
	}
	wrong.head(w, linesType)
}

// announce says in the head of an answer that the count stands behind it, if it is asked for.
func (t *tally) announce(w http.ResponseWriter) {
	if t.how.count {
		w.Header().Set("Trailer", countField)
	}
}

// tell writes the count behind the replies, as the last line and as a field, if it is asked for.
func (t *tally) tell(w http.ResponseWriter) {
	if !t.how.count {
		return
	}
	written, err := json.Marshal(map[string]any{"count": map[string]any{
		"accepted": t.accepted, "answered": t.answered, "refused": t.refused, "unread": t.unread, "untaken": t.untaken,
	}})
	if err != nil {
		return
	}
	// Who has gone isn't told.
	_, _ = w.Write(append(written, '\n'))
	parts := []string{fmt.Sprintf("accepted=%d, answered=%d", t.accepted, t.answered)}
	var numbers []int
	for number := range t.refused {
		numbers = append(numbers, number)
	}
	sort.Ints(numbers)
	for _, number := range numbers {
		parts = append(parts, "refused-"+strconv.Itoa(number)+"="+strconv.Itoa(t.refused[number]))
	}
	parts = append(parts, "untaken="+strconv.Itoa(t.untaken))
	if t.unread {
		parts = append(parts, "unread")
	}
	w.Header().Set(countField, strings.Join(parts, ", "))
}
