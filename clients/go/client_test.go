package review

import (
	"context"
	"encoding/json"
	"errors"
	"fmt"
	"io"
	"net/http"
	"net/http/httptest"
	"os"
	"strings"
	"sync/atomic"
	"testing"
	"time"
)

const patient = 2 * time.Minute

// real is a client of the front that REVIEW_FRONT names, which was told the clinic's lines.
func real(t *testing.T, options Options) *Client {
	t.Helper()
	base := os.Getenv("REVIEW_FRONT")
	if base == "" {
		t.Skip("REVIEW_FRONT names no front")
	}
	options.Timeout = time.Minute
	return over(t, base, options)
}

func over(t *testing.T, base string, options Options) *Client {
	t.Helper()
	client, err := New(base, options)
	if err != nil {
		t.Fatal(err)
	}
	t.Cleanup(client.Close)
	return client
}

// call is what the front answers a path, by POST where something is sent.
func (c *Client) call(t *testing.T, path, body string, into any) {
	t.Helper()
	method := http.MethodGet
	if body != "" {
		method = http.MethodPost
	}
	if _, err := c.send(context.Background(), method, path, []byte(body), 0, into); err != nil {
		t.Fatal(path, err)
	}
}

// setRole sets the role of hana, and gives the edit's serial.
func (c *Client) setRole(t *testing.T, role string) uint64 {
	t.Helper()
	var read struct{ Serial uint64 }
	c.call(t, "/commands/attr.set", `{"category":"AccessSubject","entity":"hana","attribute":"role","type":"string","values":["`+role+`"]}`, &read)
	return read.Serial
}

func eventually(t *testing.T, what string, is func() bool) {
	t.Helper()
	for until := time.Now().Add(patient); time.Now().Before(until); time.Sleep(10 * time.Millisecond) {
		if is() {
			return
		}
	}
	t.Fatal("it doesn't come to be so:", what)
}

// keeps says whether a question that was just asked isn't sent again.
func (c *Client) keeps(q Question) bool {
	c.Ask(context.Background(), q)
	sent := c.sent.Load()
	c.Ask(context.Background(), q)
	return c.sent.Load() == sent
}

// TestTable asks cells, with and without a cache, and gets what the table says.
func TestTable(t *testing.T) {
	for _, client := range []*Client{real(t, Options{}), real(t, Options{Cache: 1000})} {
		var read struct {
			Table []struct {
				key
				Decision, Status    string
				Obligations, Advice []Duty
			}
		}
		client.call(t, "/table", "", &read)
		for at := 0; at < len(read.Table); at += 7 {
			cell := read.Table[at]
			got := client.Ask(context.Background(), Question{Person: cell.Person, Action: cell.Action, Resource: cell.Resource})
			want := made(cell.Decision, cell.Obligations, cell.Advice, cell.Status, got.Serial)
			if fmt.Sprint(got) != fmt.Sprint(want) {
				t.Errorf("%v is answered %v", want, got)
			}
		}
		if len(read.Table) == 0 {
			t.Error("the table is empty")
		}
	}
}

// TestObligations sees that obligations are handed over, and that who fulfils none lets nobody in.
func TestObligations(t *testing.T) {
	client := real(t, Options{})
	got := client.Ask(context.Background(), Question{Person: "ada", Action: "break-glass", Resource: "record-moss"})
	var given []string
	done := got.Allowed(func(one Duty) error {
		given = append(given, one.ID+" "+fmt.Sprint(one.Assignments[0].Value))
		return nil
	})
	if !done || strings.Join(given, ", ") != "tell-the-privacy-officer ada" {
		t.Errorf("%v is allowed: %v, and hands over %q", got, done, given)
	}
	if got.Allowed(nil) || got.Allowed(func(Duty) error { return errors.New("no") }) {
		t.Errorf("%v is allowed without its obligation", got)
	}
	given = nil
	got.Decision = "Deny"
	if got.Allowed(func(one Duty) error { given = append(given, one.ID); return nil }) || len(given) != 1 {
		t.Errorf("a Deny is allowed, or hands over %q", given)
	}
}

// TestAtLeast asks of the state of an own edit, and of one to come.
func TestAtLeast(t *testing.T) {
	client := real(t, Options{})
	q := Question{Person: "hana", Action: "write", Resource: "record-moss", AtLeast: client.setRole(t, "trainee")}
	if got := client.Ask(context.Background(), q); got.Serial < q.AtLeast || got.Decision != "Deny" {
		t.Errorf("%v is answered %v", q, got)
	}
	q.AtLeast += 1_000_000
	client.options.Timeout = 100 * time.Millisecond
	if got := client.Ask(context.Background(), q); got.Decision != NoAnswer || got.Allowed(nil) {
		t.Errorf("%v is answered %v", q, got)
	}
}

// TestCache sees that kept answers aren't asked for, and change with the table, and which aren't kept.
func TestCache(t *testing.T) {
	client := real(t, Options{Cache: 100})
	q := Question{Person: "hana", Action: "write", Resource: "record-moss"}
	for _, role := range []string{"trainee", "doctor", "trainee", "doctor"} {
		client.setRole(t, role)
		var read struct{ Cell struct{ Decision string } }
		client.call(t, "/cells/hana/write/record-moss", "", &read)
		eventually(t, "the answer is the cell's", func() bool { return client.Ask(context.Background(), q).Decision == read.Cell.Decision })
		eventually(t, "the answer is kept", func() bool { return client.keeps(q) })
	}
	own := q
	if own.AtLeast = client.setRole(t, "trainee"); client.Ask(context.Background(), own).Serial < own.AtLeast {
		t.Error("a kept answer is given for a later serial")
	}
	more := q
	more.More = []Attribute{{Category: "Environment", ID: "n", Value: 1}}
	if other := (Question{Person: "nobody/else", Action: "write", Resource: "record-moss"}); client.keeps(other) || client.keeps(more) {
		t.Error("an answer of no cell is kept")
	}
}

// TestGuard passes requests on that are allowed.
func TestGuard(t *testing.T) {
	client := real(t, Options{})
	told := atomic.Int64{}
	guard := client.Guard(
		http.HandlerFunc(func(w http.ResponseWriter, _ *http.Request) { fmt.Fprint(w, "in") }),
		func(r *http.Request) (Question, bool) {
			return Question{Person: r.Header.Get("User"), Action: "break-glass", Resource: r.URL.Path[1:]}, r.Header.Get("User") != ""
		},
		func(*http.Request, Duty) error { told.Add(1); return nil },
	)
	nowhere := over(t, "http://127.0.0.1:1", Options{}).Guard(guard, func(*http.Request) (Question, bool) { return Question{}, true }, nil)
	for _, one := range []struct {
		user   string
		by     http.Handler
		status int
	}{{"ada", guard, 200}, {"nobody", guard, 403}, {"", guard, 403}, {"ada", nowhere, 503}} {
		asked := httptest.NewRequest(http.MethodGet, "/record-moss", nil)
		asked.Header.Set("User", one.user)
		answer := httptest.NewRecorder()
		if one.by.ServeHTTP(answer, asked); answer.Code != one.status {
			t.Errorf("%q is answered %d", one.user, answer.Code)
		}
	}
	if told.Load() != 1 {
		t.Errorf("%d obligations were handed over", told.Load())
	}
}

const permit = `{"Response":[{"Decision":"Permit"}]}`

// answers is a front that answers each question by the next of some statuses and bodies, and then by the last.
func answers(t *testing.T, pairs ...any) *httptest.Server {
	count := atomic.Int64{}
	server := httptest.NewServer(http.HandlerFunc(func(w http.ResponseWriter, r *http.Request) {
		at := int(count.Add(1)-1) * 2
		if at >= len(pairs) {
			at = len(pairs) - 2
		}
		w.Header().Set("Review-Serial", "7")
		w.WriteHeader(pairs[at].(int))
		_, _ = io.WriteString(w, pairs[at+1].(string))
	}))
	t.Cleanup(server.Close)
	return server
}

// TestNoAnswer sees what is asked once more, and that all else denies.
func TestNoAnswer(t *testing.T) {
	hang := make(chan struct{})
	silent := httptest.NewServer(http.HandlerFunc(func(http.ResponseWriter, *http.Request) { <-hang }))
	t.Cleanup(func() { close(hang); silent.Close() })
	for _, one := range []struct {
		base    string
		sent    uint64
		allowed bool
	}{
		{"http://127.0.0.1:1", 2, false}, {silent.URL, 2, false},
		{answers(t, 503, "", 200, permit).URL, 2, true}, {answers(t, 503, "").URL, 2, false},
		{answers(t, 401, permit).URL, 1, false}, {answers(t, 302, permit).URL, 1, false},
		{answers(t, 200, `{"Response":[]}`).URL, 1, false}, {answers(t, 200, `{"Response":[{"Decision":"Yes"}]}`).URL, 1, false},
		{answers(t, 200, "no JSON").URL, 2, false}, {answers(t, 200, permit).URL, 1, true},
	} {
		client := over(t, one.base, Options{Timeout: 200 * time.Millisecond})
		got := client.Ask(context.Background(), Question{Person: "a"})
		if got.Allowed(nil) != one.allowed || client.sent.Load() != one.sent || !one.allowed && (got.Decision != NoAnswer || got.Err == nil) {
			t.Errorf("%s is asked %d times, and allowed: %v", one.base, client.sent.Load(), got)
		}
	}
}

// TestTold has a front tell what a test wants: from where on, what changed, that all is to be read anew, and the end.
func TestTold(t *testing.T) {
	events, serial := make(chan string), atomic.Int64{}
	serial.Store(7)
	front := httptest.NewServer(http.HandlerFunc(func(w http.ResponseWriter, r *http.Request) {
		w.Header().Set("Review-Serial", fmt.Sprint(serial.Load()))
		switch parts := strings.Split(r.URL.Path, "/"); parts[1] {
		case "notices":
			for event := range events {
				_, _ = io.WriteString(w, event)
				w.(http.Flusher).Flush()
				if !strings.HasSuffix(event, "\n\n") {
					return
				}
			}
		case "cells":
			cell := map[string]any{"person": parts[2], "action": parts[3], "resource": parts[4], "decision": "Permit"}
			_ = json.NewEncoder(w).Encode(map[string]any{"cell": cell})
		default:
			_, _ = io.WriteString(w, permit)
		}
	}))
	client := over(t, front.URL, Options{Cache: 2, Timeout: time.Minute})
	t.Cleanup(func() { client.Close(); close(events); front.Close() })
	a, d := Question{Person: "a", Action: "b", Resource: "c"}, Question{Person: "d", Action: "b", Resource: "c"}
	for _, end := range []string{"", "{\"status\":401}\n"} {
		if client.keeps(a) {
			t.Error("an answer is kept while nobody tells")
		}
		events <- "event: from\nid: 7\ndata: {\"serial\":7}\n\n"
		eventually(t, "answers are kept", func() bool { return client.keeps(a) })
		events <- end
		eventually(t, "none is kept", func() bool { return !client.keeps(a) })
	}
	events <- "event: from\nid: 5\ndata: {\"serial\":5}\n\n"
	eventually(t, "answers are kept", func() bool { return client.keeps(a) && client.keeps(d) })
	sent, own := client.sent.Load(), a
	for own.AtLeast = 4; own.AtLeast <= 6; own.AtLeast++ {
		client.Ask(context.Background(), own)
	}
	if sent++; client.sent.Load() != sent {
		t.Error("a kept answer is given for a serial that wasn't told, or isn't for one that was")
	}
	events <- ":\n\nevent: notices\nid: 6\ndata: {\"notices\":[{\"person\":\"a\",\"action\":\"b\",\"resource\":\"c\"}]}\n\n"
	eventually(t, "a change is heard", func() bool { client.Ask(context.Background(), a); return client.sent.Load() == sent+1 })
	if !client.keeps(d) || client.sent.Load() != sent+1 {
		t.Error("an answer is forgotten that didn't change")
	}
	events <- "event: anew\nid: 7\ndata: {\"serial\":7}\n\n"
	eventually(t, "that all is new is heard", func() bool { client.Ask(context.Background(), d); return client.sent.Load() > sent+1 })
	serial.Store(6)
	if client.keeps(a) {
		t.Error("an answer of an older state than was told is kept")
	}
}
