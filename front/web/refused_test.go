package web

import (
	"bytes"
	"context"
	"fmt"
	"strings"
	"sync"
	"testing"
	"time"

	"review-front/keeper"
	"review-front/logs"
	"review-front/measure"
)

// said is a log in memory.
type said struct {
	mutex sync.Mutex
	text  bytes.Buffer
}

// Write takes what is logged.
func (s *said) Write(b []byte) (int, error) {
	s.mutex.Lock()
	defer s.mutex.Unlock()
	return s.text.Write(b)
}

func (s *said) String() string {
	s.mutex.Lock()
	defer s.mutex.Unlock()
	return s.text.String()
}

// TestRefusedEvery has lines refused while a server runs: they are logged from time to time, with as much of the first
// line as is shown, and of no more clients than there are rows.
func TestRefusedEvery(t *testing.T) {
	var told said
	k := keeper.New(keeper.Options{Queue: 1, MostSessions: 9})
	site := New(Options{
		Keeper: k, Meter: measure.New(), Log: logs.New(&told), SessionIdle: time.Minute, RefusedEvery: time.Hour,
	})
	refusal := []byte(`{"refused":6,"sub":3}`)
	long := `{"do":"policy.add","document":"` + strings.Repeat("x", 1000) + `"}`
	for i := 0; i < mostRefused+5; i++ {
		site.refuses(fmt.Sprintf("client-%d", i), []byte(long), refusal)
		site.refuses(fmt.Sprintf("client-%d", i), []byte(long), []byte(`{"changes":0,"serial":1}`))
	}
	site.refuses("client-3", []byte(`{}`), refusal)
	site.RefusedEvery = time.Millisecond
	ctx, cancel := context.WithCancel(context.Background())
	defer cancel()
	go site.Sweep(ctx)
	for until := time.Now().Add(time.Minute); !strings.Contains(told.String(), "lines of others"); {
		if time.Now().After(until) {
			t.Fatal("nothing is logged")
		}
		time.Sleep(time.Millisecond)
	}
	cancel()
	text := told.String()
	const others = `"message":"lines of others were refused","lines":5}` + "\n"
	if strings.Count(text, "\n") != mostRefused+1 || !strings.HasSuffix(text, others) {
		t.Errorf("%d lines are logged, the last of them %.300s", strings.Count(text, "\n"), text[len(text)-300:])
	}
	const third = `"by":"client-3","refused":6,"sub":3,"lines":2,` +
		`"why":"the document or the reference: a rule or policy combining algorithm is unknown","first":"{\"do\":`
	if !strings.Contains(text, third) || strings.Contains(text, strings.Repeat("x", shownBytes)) {
		t.Errorf("it is logged as %.1000s", text)
	}
}

// TestFaults sees that each refusal has its sentence, and each sub-code of the sixth.
func TestFaults(t *testing.T) {
	var r reasons
	for number := 1; number <= 15; number++ {
		title, why := refusals[number].title, r.why("day.set", number, 0)
		if title == "" || !strings.HasPrefix(why, title+": ") {
			t.Errorf("%d is told as %s", number, why)
		}
	}
	for sub := 1; sub <= 9; sub++ {
		if why := r.why("policy.add", refusedDocument, sub); strings.Contains(why, "sub-code") {
			t.Errorf("sub-code %d is told as %s", sub, why)
		}
	}
}
