package main

import (
	"fmt"
	"io"
	"net/http"
	"strings"
	"testing"
)

// manyKinds is a body in which lines are accepted, answered and refused, and manyCounts what is told of it.
var (
	manyKinds = []string{
		`{"do":"person.add","name":"ann"}`, `{"do":"counts"}`, `{"do":"person.add","name":"ann"}`,
		`{"do":"person.add","name":""}`, `{"do":"action.add","name":"read"}`, `{"do":"person.add","name":"ann"}`,
	}
	manyCounts = [2]string{
		`{"count":{"accepted":2,"answered":1,"refused":{"11":1,"8":2},"unread":false,"untaken":0}}`,
		"accepted=2, answered=1, refused-8=2, refused-11=1, untaken=0",
	}
)

// tallied sends a body, in pieces or whole, and gives the status, the replies and the field behind them.
func (f *front) tallied(query string, pieces bool, body string, fields ...string) (int, []string, string) {
	f.t.Helper()
	var from io.Reader = strings.NewReader(body)
	if pieces {
		from = io.MultiReader(from) // its length isn't known
	}
	request, err := http.NewRequest(http.MethodPost, f.url("/lines?"+query), from)
	if err != nil {
		f.t.Fatal(err)
	}
	for i := 0; i+1 < len(fields); i += 2 {
		request.Header.Set(fields[i], fields[i+1])
	}
	answer, err := http.DefaultClient.Do(request)
	if err != nil {
		f.t.Fatal(err)
	}
	status, said := bodyOf(f.t, answer)
	return status, strings.Split(said, "\n"), answer.Trailer.Get("Review-Count")
}

// TestCount has it told what became of the lines of a body, by a last line and a field behind it, whichever way the
// body comes; and nothing where it isn't asked for.
func TestCount(t *testing.T) {
	for _, pieces := range []bool{false, true} {
		f := begin(t, t.TempDir())
		status, replies, field := f.tallied("count=1", pieces, strings.Join(manyKinds, "\n"))
		if status != http.StatusOK || len(replies) != len(manyKinds)+1 || replies[len(manyKinds)] != manyCounts[0] ||
			field != manyCounts[1] {
			t.Errorf("it is answered %d, %q and %q", status, replies, field)
		}
		if status, replies, field := f.tallied("", pieces, strings.Join(manyKinds, "\n")); status != http.StatusOK ||
			len(replies) != len(manyKinds) || field != "" {
			t.Errorf("without a count it is answered %d, %q and %q", status, replies, field)
		}
		const none = `{"count":{"accepted":0,"answered":0,"refused":{},"unread":false,"untaken":0}}`
		if _, replies, _ := f.tallied("count=1", pieces, ""); len(replies) != 1 || replies[0] != none {
			t.Errorf("of nothing it is told %q", replies)
		}
	}
	f := begin(t, t.TempDir(), "--sessions", "1")
	f.session()
	// The first line has no session, and nothing behind it is taken.
	status, replies, field := f.tallied("count=1", false, "{\"do\":\"mark\"}\n"+strings.Join(manyKinds, "\n"))
	last := replies[len(replies)-1]
	if status != http.StatusServiceUnavailable || !strings.Contains(last, `"untaken":7`) ||
		!strings.HasSuffix(field, "untaken=7") {
		t.Errorf("it is answered %d, %q and %q", status, replies, field)
	}
	status, replies, _ = f.tallied("count=1", true, "{\"do\":\"mark\"}\n"+strings.Join(manyKinds, "\n"))
	last = replies[len(replies)-1]
	if status != http.StatusServiceUnavailable || !strings.Contains(last, `"unread":true`) {
		t.Errorf("in pieces it is answered %d, %q", status, replies)
	}
	edits := []string{manyKinds[0], manyKinds[2], manyKinds[4]}
	for i := 0; i < 2; i++ {
		_, replies, field := f.tallied("count=1", false, strings.Join(edits, "\n"), "Idempotency-Key", "one")
		if len(replies) != 4 || field != "accepted=2, answered=0, refused-8=1, untaken=0" {
			t.Errorf("with a key it is answered %q and %q", replies, field)
		}
	}
}

// TestStrict sends bodies whose status tells whether each line was accepted.
func TestStrict(t *testing.T) {
	f := begin(t, t.TempDir())
	const add, again = `{"do":"person.add","name":"%s"}`, `{"do":"person.add","name":"ann"}`
	long := strings.Repeat(" ", 1<<16)
	for _, one := range []struct {
		body   string
		status int
		ends   string
	}{
		{fmt.Sprintf(add, "ann") + "\n" + `{"do":"counts"}`, http.StatusOK, `"Permit":0}}`},
		{again, http.StatusConflict, `{"refused":8}`},
		{`{"do":"person.drop","name":"eve"}`, http.StatusNotFound, `{"refused":7}`},
		{`{"do":"nothing"}` + "\n" + again, http.StatusNotFound, `{"refused":8}`},
		{`{"do":"nothing"}` + "\n" + fmt.Sprintf(add, "ben"), http.StatusConflict, `"serial":2}`},
		{fmt.Sprintf(add, "eve") + "\n" + again, http.StatusConflict, `{"refused":8}`},
		{`{"do":"counts"}` + "\n" + `{"do":"table"}`, http.StatusBadRequest, `"}`},
		{`{"do":"counts"}` + long, http.StatusRequestEntityTooLarge, `"}`},
		{"", http.StatusOK, ""},
	} {
		status, replies, _ := f.tallied("strict=1", false, one.body)
		if last := replies[len(replies)-1]; status != one.status || !strings.HasSuffix(last, one.ends) {
			t.Errorf("%.80s is answered %d %q, and not %d", one.body, status, replies, one.status)
		}
	}
	for _, body := range []string{again, `{"do":"counts"}` + long} {
		if status, replies, _ := f.tallied("strict=1", true, body); status == http.StatusOK {
			t.Errorf("in pieces %.80s is answered %d %q", body, status, replies)
		}
	}
	status, replies, field := f.tallied("strict=1&count=1", false, manyKinds[0]+"\n"+`{"do":"person.add","name":"dina"}`)
	if status != http.StatusConflict || len(replies) != 3 || field != "accepted=1, answered=0, refused-8=1, untaken=0" {
		t.Errorf("it is answered %d, %q and %q", status, replies, field)
	}
	status, _, _ = f.tallied("strict=1", false, manyKinds[0], "Idempotency-Key", "one")
	if status != http.StatusConflict {
		t.Errorf("with a key it is answered %d", status)
	}
	f = begin(t, t.TempDir(), "--sessions", "1")
	f.session()
	status, replies, _ = f.tallied("strict=1", false, "{\"do\":\"counts\"}\n{\"do\":\"mark\"}")
	if status != http.StatusServiceUnavailable {
		t.Errorf("where nothing is accepted it is answered %d %q", status, replies)
	}
	// What was accepted isn't sent again by who sends all again behind 503.
	status, replies, _ = f.tallied("strict=1", false, manyKinds[0]+"\n{\"do\":\"mark\"}")
	if status != http.StatusConflict {
		t.Errorf("where something is accepted it is answered %d %q", status, replies)
	}
}

// TestWhy has refusals say why: of a limit which it is, how much it allows, and once how it is raised.
func TestWhy(t *testing.T) {
	f := begin(t, t.TempDir(), "--people", "3", "--cells", "4")
	lines := []string{
		`{"do":"person.add","name":"a"}`, `{"do":"person.add","name":"b"}`, `{"do":"person.add","name":"c"}`,
		`{"do":"action.add","name":"r"}`, `{"do":"resource.add","name":"x"}`, `{"do":"resource.add","name":"y"}`,
		`{"do":"person.add","name":"d"}`, `{"do":"person.add","name":"e"}`, `{"do":"resource.add","name":"z"}`,
		`{"do":"person.add","name":"a"}`, `{"do":"policy.add","document":{}}`, `{`,
		`{"do":"attr.set","category":"Resource","entity":"x","attribute":"n","type":"integer","values":[` +
			strings.Repeat("1,", 256) + `1]}`,
	}
	want := map[int]string{
		5:  `{"refused":9,"why":"a limit: the table has at most 4 cells; --cells raises it"}`,
		6:  `{"refused":9,"why":"a limit: the table has at most 3 people; --people raises it"}`,
		7:  `{"refused":9,"why":"a limit: the table has at most 3 people"}`,
		8:  `{"refused":9,"why":"a limit: the table has at most 4 cells"}`,
		9:  `{"refused":8,"why":"already there: the name is listed, or the module holds such a document"}`,
		10: `{"refused":6,"sub":9,"why":"the document or the reference: a key is unknown or missing, or what stands at `,
		11: `{"refused":2,"why":"not JSON: `,
		12: `{"refused":9,"why":"a limit: a row has at most 256 values"}`,
	}
	body := strings.Join(lines, "\n")
	_, replies, _ := f.tallied("words=1", false, body)
	for i, reply := range replies {
		if !strings.HasPrefix(reply, want[i]) || want[i] == "" && strings.Contains(reply, "refused") {
			t.Errorf("%.80s is answered %s, and not %s", lines[i], reply, want[i])
		}
	}
	if _, replies, _ := f.tallied("", false, body); strings.Contains(strings.Join(replies, ""), "why") {
		t.Errorf("words are told that nobody asked for: %q", replies)
	}
	if _, replies, _ := f.tallied("words=1", false, lines[7], "Idempotency-Key", "k"); replies[0] != want[6] {
		t.Errorf("with a key it is answered %q", replies)
	}
	if got := f.send(t, http.MethodPost, "/lines?dry=1&words=1", lines[0]); got.status != http.StatusBadRequest {
		t.Errorf("a query of dry and words is answered %+v", got)
	}
}

// TestRefusedLog sends lines that are refused, and finds them counted in what the front logs, by number and client.
func TestRefusedLog(t *testing.T) {
	f := begin(t, t.TempDir(), "--people", "3", "--by-header", "X-User")
	var lines []string
	for i := 0; i < 40; i++ {
		lines = append(lines, fmt.Sprintf(`{"do":"person.add","name":"p%d"}`, i))
	}
	lines = append(lines, lines[0])
	for _, by := range []string{"ann", "ben"} {
		f.sentBy(http.Header{"X-User": {by}}, "/lines", strings.Join(lines, "\n"))
	}
	f.sentBy(http.Header{"X-User": {"carl"}}, "/commands/person.drop", `{"name":"q"}`)
	f.sentBy(http.Header{"X-User": {"carl"}, "Idempotency-Key": {"k"}}, "/lines", `{"do":"person.drop","name":"r"}`)
	f.sentBy(http.Header{"X-User": {"dina"}}, "/lines?whole=1", `{"do":"person.drop","name":"r"}`)
	if status := f.stop(); status != 0 {
		t.Fatalf("the front ends with %d", status)
	}
	const limit, raises = `"why":"a limit: the table has at most 3 people and 65536 cells`, `; --people and --cells raise them`
	const third = `","first":"{\"do\":\"person.add\",\"name\":\"p3\"}"}`
	for _, told := range []string{
		`"by":"ann","refused":9,"lines":37,` + limit + raises + third,
		`"by":"ann","refused":8,"lines":1,"why":"already there: `,
		`"by":"ben","refused":9,"lines":37,` + limit + third,
		`"by":"ben","refused":8,"lines":4,`,
		`"by":"carl","refused":7,"lines":2,"why":"not there: the name isn't listed, or the module doesn't hold the document",` +
			`"first":"{\"name\":\"q\",\"do\":\"person.drop\"}"}`,
		`"by":"dina","refused":7,"lines":1,`,
	} {
		if !strings.Contains(f.log(), `"message":"lines were refused",`+told) {
			t.Errorf("%s isn't told:\n%s", told, f.log())
		}
	}
}
