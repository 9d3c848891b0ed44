package web

import (
	"context"
	"net/http"
	"net/http/httptest"
	"sync/atomic"
	"testing"
	"time"

	"review-front/keeper"
)

// due is a line whose reply is there.
func due(reply keeper.Reply) pending {
	replies := make(chan keeper.Reply, 1)
	replies <- reply
	return pending{replies: replies}
}

// TestBegin has lines on their way when the first of them gets its reply: the status is that of its problem only where
// none behind it was accepted, and then nothing more is taken.
func TestBegin(t *testing.T) {
	lost := func() pending { return due(keeper.Reply{Err: keeper.ErrEnded}) }
	said := func(body string) pending { return due(keeper.Reply{Body: []byte(body)}) }
	const made, refused = `{"changes":0,"serial":1}`, `{"refused":8}`
	told := problemFor(keeper.ErrEnded)
	none := string(told.line())
	for _, one := range []struct {
		lines  []pending
		status int
		said   string
		over   bool
	}{
		{[]pending{said(refused), said(made)}, 200, refused + "\n", false},
		{[]pending{lost()}, 503, none + "\n", true},
		{[]pending{lost(), said(refused)}, 503, none + "\n" + refused + "\n", true},
		{[]pending{lost(), said(made), said(refused)}, 200, none + "\n" + made + "\n" + refused + "\n", false},
	} {
		in := &stream{out: make(chan pending, window), freed: make(chan struct{}, 1), gate: newGate()}
		for i, next := range one.lines {
			if !in.gate.pass() {
				t.Fatal("a line doesn't pass")
			}
			if i > 0 {
				in.out <- next
			}
		}
		w := httptest.NewRecorder()
		err := in.begin(context.Background(), &answered{ResponseWriter: w, last: new(atomic.Bool)}, one.lines[0])
		if w.Code != one.status || w.Body.String() != one.said || (err == errOver) != one.over {
			t.Errorf("the answer is %d %s, %v, and not %d %s", w.Code, w.Body, err, one.status, one.said)
		}
		if again := w.Header().Get("Retry-After"); (again != "") != (w.Code == http.StatusServiceUnavailable) {
			t.Errorf("of %d it is tried again after %q", w.Code, again)
		}
	}
}

// TestGate shuts the gate of a stream: a line waits until it is opened, and passes, or until the end, and doesn't.
func TestGate(t *testing.T) {
	for _, goesOn := range []bool{true, false} {
		g := newGate()
		g.pass()
		if g.failed(); g.shut() != 1 {
			t.Fatal("another number of lines passed")
		}
		passed := make(chan bool, 1)
		go func() { passed <- g.pass() }()
		select {
		case <-passed:
			t.Fatal("a line passes while the gate is shut")
		case <-time.After(20 * time.Millisecond):
		}
		if goesOn {
			g.open()
		} else {
			g.end()
		}
		if <-passed != goesOn {
			t.Errorf("a line passes or doesn't, and not %v", goesOn)
		}
		g.end()
	}
	g := newGate()
	g.pass()
	g.pass()
	if g.failed(); !g.pass() {
		t.Error("nothing passes behind the failure of a second line")
	}
}
