package main

import (
	"bytes"
	"fmt"
	"net/http"
	"os"
	"path/filepath"
	"regexp"
	"strings"
	"testing"
	"time"
)

// TestIssuedTokens shows tokens of an issuer to a front that takes one type of them, and knows others by name.
func TestIssuedTokens(t *testing.T) {
	s := newSigner(t)
	words := append(s.options(), "--token-type", "at+jwt", "--access", accessFile(t, entry("boss", "edit"),
		`{"claim":{"group":"desk"},"roles":["read"]}`, `{"subject":"BOSS","roles":["read"]}`))
	f := begin(t, t.TempDir(), words...)
	eventually(t, "the line is told by which nobody is known", func() bool {
		return strings.Contains(f.log(), `the subject \"BOSS\"`)
	})
	for _, one := range []struct {
		subject, kind string
		status        int
		log           string
	}{
		{"ann", "at+jwt", http.StatusOK, ""}, {"ann", "application/at+jwt", http.StatusOK, ""},
		{"ann", "JWT", http.StatusUnauthorized, "it is of a type that isn't taken"},
		{"ann", "logout+jwt", http.StatusUnauthorized, "it is of a type that isn't taken"},
		{"boss", "at+jwt", http.StatusUnauthorized, "the subject of the token is a name of the front's own"},
		{"Boss", "at+jwt", http.StatusUnauthorized, "the subject of the token is a name of the front's own"},
	} {
		token := s.token(t, one.subject, time.Now().Add(time.Hour), map[string]any{"typ": one.kind}, map[string]any{"group": "desk"})
		got := f.send(t, http.MethodGet, "/counts", "", "Authorization", "Bearer "+token)
		if got.status != one.status {
			t.Errorf("%s by a token of type %s is answered %+v", one.subject, one.kind, got)
		}
		eventually(t, "it is told why", func() bool { return strings.Contains(f.log(), one.log) })
	}
}

// TestIssuedClaims shows tokens of many claims to a front whose policies decide: of none that is too much for them
// anything is permitted, and it is told why.
func TestIssuedClaims(t *testing.T) {
	s, state := newSigner(t), filepath.Join(t.TempDir(), "rights")
	if err := os.WriteFile(state, []byte(permitting("counts")), 0o600); err != nil {
		t.Fatal(err)
	}
	f := begin(t, t.TempDir(), append(s.options(), "--rights", state, "--access",
		accessFile(t, `{"claim":{"group":"desk"},"roles":["read"]}`))...)
	for count, want := range map[int]int{10: http.StatusOK, 300: http.StatusForbidden} {
		claims := map[string]any{"group": "desk"}
		for i := 0; i < count; i++ {
			claims[fmt.Sprint("c", i)] = "x"
		}
		token := s.token(t, "ann", time.Now().Add(time.Hour), nil, claims)
		got := f.send(t, http.MethodGet, "/counts", "", "Authorization", "Bearer "+token)
		if got.status != want || (want == http.StatusForbidden) != strings.Contains(got.body, "of so many claims") {
			t.Errorf("with %d claims it is answered %+v", count, got)
		}
	}
}

// TestHelp reads the help: what stands behind an option is what is to be given, a word in quotes of its sentence.
func TestHelp(t *testing.T) {
	var said bytes.Buffer
	if _, status, served := parse([]string{"--help"}, &said); status != 0 || served {
		t.Errorf("the help ends with %d", status)
	}
	for _, want := range []string{"-audience name\n", "-token-type type\n", "-issuer name\n", "-by-header field\n"} {
		if !strings.Contains(said.String(), want) {
			t.Errorf("the help has no %q", want)
		}
	}
	if found := regexp.MustCompile("(?m)^  -[a-z-]+ (has|it|of|is|and)$").FindString(said.String()); found != "" {
		t.Errorf("the help says %q", found)
	}
	for _, words := range [][]string{{"--token-type", "JWT"}, {"--audience", "a"}} {
		said.Reset()
		all := append([]string{"--program", "p", "--journal", "j", "--access", "a"}, words...)
		if _, status, served := parse(all, &said); status != 2 || served || !strings.Contains(said.String(), "need --issuer") {
			t.Errorf("%v is answered %d %s", words, status, said.String())
		}
	}
}
