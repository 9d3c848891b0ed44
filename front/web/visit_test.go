package web

import (
	"context"
	"crypto/sha256"
	"encoding/hex"
	"fmt"
	"net/http"
	"net/http/httptest"
	"os"
	"path/filepath"
	"strings"
	"testing"
	"time"

	"review-front/access"
	"review-front/logs"
)

// visited is a request of somebody who is known, and what has a file with other roles of his be read.
func visited(t *testing.T, roles string) (*Server, *visit, func(roles string)) {
	t.Helper()
	path := filepath.Join(t.TempDir(), "access")
	sum := sha256.Sum256([]byte("secret"))
	write := func(roles string) {
		l := fmt.Sprintf("{\"name\":\"ann\",\"roles\":[%s],\"token_sha256\":%q}\n", roles, hex.EncodeToString(sum[:]))
		if roles == "" {
			l = ""
		}
		if err := os.WriteFile(path, []byte(l), 0o600); err != nil {
			t.Fatal(err)
		}
	}
	write(roles)
	gate, err := access.Open(access.Options{File: path})
	if err != nil {
		t.Fatal(err)
	}
	s := &Server{Options: Options{Access: gate, Log: logs.New(os.Stderr)}}
	r := httptest.NewRequest(http.MethodPost, "/lines", nil)
	r.Header.Set("Authorization", "Bearer secret")
	r, known := s.admit(&answered{ResponseWriter: httptest.NewRecorder()}, r)
	if !known {
		t.Fatal("he isn't known")
	}
	return s, visitIn(r.Context()), func(roles string) {
		write(roles)
		take, err := gate.Read()
		if err != nil {
			t.Fatal(err)
		}
		take()
		s.ReadAgain()
	}
}

// TestVisit judges lines of a request that goes on, while it is read again who may what.
func TestVisit(t *testing.T) {
	s, v, again := visited(t, `"read","audit"`)
	stay := s.stays(v.request, "notices")
	defer stay.end()
	for _, one := range []struct {
		roles  string
		status int // of a question; 0: it may be asked
		stays  bool
	}{
		{`"read","audit"`, 0, true}, {`"audit"`, http.StatusForbidden, true}, {`"read"`, 0, false}, {`"read","audit"`, 0, true},
		{"", http.StatusUnauthorized, false}, {`"audit"`, http.StatusForbidden, true},
	} {
		again(one.roles)
		if told, wrong := s.judge(v, []byte(`{"do":"counts"}`)); told.Status != one.status || wrong != (one.status != 0) {
			t.Errorf("with the roles %s it is %+v", one.roles, told)
		}
		if may := stay.may(); may != one.stays {
			t.Errorf("with the roles %s he listens on: %v", one.roles, may)
		}
		if named := v.last(); named == nil || named.Name != "ann" {
			t.Errorf("with the roles %s he is %+v", one.roles, named)
		}
	}
	if everybody := s.stays(httptest.NewRequest(http.MethodGet, "/notices", nil), "notices"); !everybody.may() {
		t.Error("where nobody is asked who he is he isn't told more")
	}
}

// TestWaitingLine has a line wait for another one's reply, and takes away meanwhile who sent it.
func TestWaitingLine(t *testing.T) {
	s, v, again := visited(t, `"read"`)
	in := &stream{
		server: s, visit: v, long: make(chan struct{}, 1), freed: make(chan struct{}, 1), gate: newGate(),
	}
	in.long <- struct{}{}
	sent := make(chan pending)
	go func() { sent <- in.submit(context.Background(), []byte(`{"do":"table"}`)) }()
	select {
	case next := <-sent:
		t.Fatalf("it doesn't wait, and is answered %s", next.there)
	case <-time.After(50 * time.Millisecond):
	}
	again("")
	<-in.long
	next := <-sent
	if !next.isUnknown() || !strings.Contains(string(next.problem.line()), "isn't known") || !next.long || next.bytes == 0 {
		t.Errorf("it is answered %+v", next)
	}
}
