package main

import (
	"crypto/ed25519"
	"crypto/rand"
	"encoding/base64"
	"encoding/json"
	"fmt"
	"net/http"
	"os"
	"path/filepath"
	"strings"
	"syscall"
	"testing"
	"time"
)

// bearer is the field of a head that shows a token.
func bearer(token string) string { return "Authorization: Bearer " + token }

// hears listens to notices by a token.
func (f *front) hears(token string) *hearing {
	f.t.Helper()
	h, err := f.hear("", "", token)
	if err != nil {
		f.t.Fatal(err)
	}
	f.t.Cleanup(h.leave)
	return h
}

// heard reads events up to one that tells a name, and is false where they end before.
func (h *hearing) heard(t *testing.T, name string) bool {
	t.Helper()
	for {
		select {
		case e, open := <-h.events:
			if !open {
				return false
			}
			if strings.Contains(e.data, `"`+name+`"`) {
				return true
			}
		case <-time.After(patient):
			t.Fatalf("neither %s nor an end is heard", name)
		}
	}
}

// ends reads the rest of a stream of lines, which ends with a line that says that who sent it isn't known.
func (s *stream) ends(t *testing.T, whose string) {
	t.Helper()
	s.endsBy(t, whose, http.StatusUnauthorized)
}

// endsBy reads the rest of a stream of lines, which ends with a line that has a status.
func (s *stream) endsBy(t *testing.T, whose string, status int) {
	t.Helper()
	_ = s.conn.SetReadDeadline(time.Now().Add(patient))
	last := ""
	for {
		reply, err := s.receive()
		if err != nil && strings.Contains(err.Error(), "timeout") {
			t.Fatalf("the lines of %s don't end", whose)
		}
		if err != nil {
			break
		}
		last = reply
	}
	if !strings.Contains(last, fmt.Sprintf(`"status":%d`, status)) {
		t.Errorf("the lines of %s end with %q", whose, last)
	}
}

// newcomer is the line that lists a person.
func newcomer(name string) string { return fmt.Sprintf(`{"do":"person.add","name":%q}`, name) }

// TestGone takes somebody out of those who are known, and a role from others, while their lines come and while they
// listen: what they send and are told is what a new request would be, and streams of who isn't known end.
func TestGone(t *testing.T) {
	boss, ben := entry("boss", "edit", "read", "audit"), entry("ben", "edit", "audit", "read")
	path := accessFile(t, boss, ben, entry("ann", "edit", "audit", "read"), entry("cal", "edit", "audit", "read"),
		entry("dan", "read"))
	f := begin(t, t.TempDir(), "--access", path)
	for _, l := range clinic(t) {
		if got := f.as(t, "boss", http.MethodPost, "/lines", l); !strings.HasPrefix(got.body, `{"changes"`) {
			t.Fatalf("%s is answered %+v", l, got)
		}
	}
	lines, heard := map[string]*stream{}, map[string]*hearing{}
	for _, who := range []string{"ann", "ben", "cal"} {
		lines[who], heard[who] = f.connect("/lines", bearer(tokenOf(who))), f.hears(tokenOf(who))
		if reply := lines[who].ask(t, newcomer("by-"+who)); !strings.HasPrefix(reply, `{"changes"`) {
			t.Fatalf("%s adds, and is answered %s", who, reply)
		}
	}
	quiet := f.connect("/lines", bearer(tokenOf("ann")))
	if reply := quiet.ask(t, `{"do":"work"}`); !strings.HasPrefix(reply, `{"evaluations"`) {
		t.Fatalf("a question is answered %s", reply)
	}
	dan := f.connect("/lines", bearer(tokenOf("dan")))
	if reply := dan.ask(t, `{"do":"work"}`); !strings.HasPrefix(reply, `{"evaluations"`) {
		t.Fatalf("a question is answered %s", reply)
	}
	now := []string{boss, ben, entry("cal", "read"), entry("dan")}
	if err := os.WriteFile(path, []byte(strings.Join(now, "\n")), 0o600); err != nil {
		t.Fatal(err)
	}
	f.hangUp("who may what was read again")
	dan.endsBy(t, "who has no role any more", http.StatusForbidden)
	_ = lines["ann"].send(newcomer("late-ann"))
	lines["ann"].ends(t, "who isn't known any more")
	quiet.ends(t, "who isn't known any more, and says nothing")
	if reply := lines["cal"].ask(t, newcomer("late-cal")); !strings.Contains(reply, `"status":403`) {
		t.Errorf("who has no role any more edits, and is answered %s", reply)
	}
	if reply := lines["cal"].ask(t, `{"do":"work"}`); !strings.HasPrefix(reply, `{"evaluations"`) {
		t.Errorf("who has another role asks, and is answered %s", reply)
	}
	if reply := lines["ben"].ask(t, newcomer("late-ben")); !strings.HasPrefix(reply, `{"changes"`) {
		t.Errorf("who is known as before edits, and is answered %s", reply)
	}
	for who, stays := range map[string]bool{"ann": false, "ben": true, "cal": false} {
		if heard[who].heard(t, "late-ben") != stays {
			t.Errorf("%s listens on: %v", who, !stays)
		}
	}
	if got := f.as(t, "boss", http.MethodGet, "/names?list=people", ""); strings.Contains(got.body, "late-ann") ||
		strings.Contains(got.body, "late-cal") {
		t.Errorf("listed are %s", got.body)
	}
}

// permitting is a state of rights that permits some commands.
func permitting(commands ...string) string {
	var rules []string
	for _, command := range commands {
		condition := isGiven(actionCategory, "urn:oasis:names:tc:xacml:1.0:action:action-id", "string", `"`+command+`"`)
		rules = append(rules, fmt.Sprintf(`{"RuleId":%q,"Effect":"Permit","Condition":%s}`, command, condition))
	}
	all := oneRule(`{}`)
	all[0] = all[0][:strings.Index(all[0], `{"RuleId"`)] + strings.Join(rules, ",") + `]}}}`
	return strings.Join(all, "\n")
}

// TestReadTogether takes somebody out while the policies of rights can't be read: all of what was read before stays, until
// both can be. Who listens by policies that don't permit it any more is told no more.
func TestReadTogether(t *testing.T) {
	boss := entry("boss", "read", "audit")
	path, state := accessFile(t, boss, entry("ann", "read")), filepath.Join(t.TempDir(), "rights")
	write := func(path, content string) {
		if err := os.WriteFile(path, []byte(content), 0o600); err != nil {
			t.Fatal(err)
		}
	}
	write(state, permitting("counts", "notices"))
	f := begin(t, t.TempDir(), "--access", path, "--rights", state)
	listener := f.hears(tokenOf("boss"))
	for _, one := range []struct {
		state, told string
		status      int
	}{
		{"nothing", "can't be read again", http.StatusOK}, {permitting("counts"), "was read again", http.StatusUnauthorized},
	} {
		write(path, boss+"\n")
		write(state, one.state)
		f.hangUp(one.told)
		if got := f.as(t, "ann", http.MethodGet, "/counts", ""); got.status != one.status {
			t.Errorf("once it %s, who was taken out is answered %+v", one.told, got)
		}
		if got := f.as(t, "boss", http.MethodGet, "/counts", ""); got.status != http.StatusOK {
			t.Errorf("once it %s, who stays is answered %+v", one.told, got)
		}
	}
	if listener.heard(t, "nothing") {
		t.Error("who listens is told of what didn't happen")
	}
}

// TestGoneKeyed takes somebody out while a body of his with a key is made: of what is left of it nothing is made.
func TestGoneKeyed(t *testing.T) {
	theProgram(t)
	boss := entry("boss", "edit", "read")
	path := accessFile(t, boss, entry("ann", "edit"))
	f := begin(t, t.TempDir(), "--access", path, "--program", faked(t, "slow"))
	know := func(lines ...string) {
		if err := os.WriteFile(path, []byte(strings.Join(lines, "\n")), 0o600); err != nil {
			t.Fatal(err)
		}
		before := strings.Count(f.log(), "who may what was read again")
		_ = f.process.Process.Signal(syscall.SIGHUP)
		eventually(t, "it is read again", func() bool {
			return strings.Count(f.log(), "who may what was read again") > before
		})
	}
	for try := 1; ; try++ {
		know(boss, entry("ann", "edit"))
		var body []string
		for i := 0; i < 64; i++ {
			body = append(body, newcomer(fmt.Sprintf("slow-%d-%d", try, i)))
		}
		answered := make(chan answer)
		go func() {
			answered <- f.as(t, "ann", http.MethodPost, "/lines", strings.Join(body, "\n"), "Idempotency-Key", fmt.Sprint("k", try))
		}()
		eventually(t, "the first edit is made", func() bool {
			return strings.Contains(f.as(t, "boss", http.MethodGet, "/names?list=people", "").body, fmt.Sprintf("slow-%d-0", try))
		})
		know(boss)
		got := <-answered
		made := strings.Count(got.body, `{"changes"`)
		if made == 64 && try < 4 {
			continue // the machine is busy, and all were made before
		}
		listed := strings.Count(f.as(t, "boss", http.MethodGet, "/names?list=people", "").body, fmt.Sprintf(`"slow-%d-`, try))
		if made == 0 || made == 64 || listed != made || !strings.HasSuffix(got.body, "}") || !strings.Contains(got.body, `"status":401`) {
			t.Errorf("%d are made, %d listed, and the answer is %+v", made, listed, got)
		}
		return
	}
}

// signer is an issuer of tokens, and the file with its key.
type signer struct {
	key  ed25519.PrivateKey
	file string
}

func newSigner(t *testing.T) *signer {
	t.Helper()
	public, private, err := ed25519.GenerateKey(rand.Reader)
	if err != nil {
		t.Fatal(err)
	}
	s := &signer{key: private, file: filepath.Join(t.TempDir(), "keys")}
	set := fmt.Sprintf(`{"keys":[{"kty":"OKP","crv":"Ed25519","x":%q}]}`, base64.RawURLEncoding.EncodeToString(public))
	if err := os.WriteFile(s.file, []byte(set), 0o600); err != nil {
		t.Fatal(err)
	}
	return s
}

// options are those by which a front takes tokens of the issuer.
func (s *signer) options() []string {
	return []string{"--issuer", "https://id.example", "--issuer-keys", s.file, "--audience", "review"}
}

// token is a token of somebody that ends then, with more in its head and of its claims.
func (s *signer) token(t *testing.T, subject string, ends time.Time, head, claims map[string]any) string {
	t.Helper()
	all := map[string]any{"iss": "https://id.example", "aud": "review", "sub": subject, "exp": ends.Unix()}
	for name, value := range claims {
		all[name] = value
	}
	above := map[string]any{"alg": "EdDSA"}
	for name, value := range head {
		above[name] = value
	}
	first, err1 := json.Marshal(above)
	second, err2 := json.Marshal(all)
	if err1 != nil || err2 != nil {
		t.Fatal(err1, err2)
	}
	text := base64.RawURLEncoding.EncodeToString(first) + "." + base64.RawURLEncoding.EncodeToString(second)
	return text + "." + base64.RawURLEncoding.EncodeToString(ed25519.Sign(s.key, []byte(text)))
}

// TestGoneByTime sends lines and listens by a token whose time ends: both end with it, also where nothing is sent and
// nothing happens.
func TestGoneByTime(t *testing.T) {
	s := newSigner(t)
	file := accessFile(t, `{"claim":{"group":"desk"},"roles":["edit","audit","read"]}`, entry("boss", "edit", "read"))
	f := begin(t, t.TempDir(), append(s.options(), "--access", file)...)
	for life := 3 * time.Second; ; life *= 2 {
		ends := time.Unix(time.Now().Add(life).Unix()+1, 0)
		token := s.token(t, "ann", ends, nil, map[string]any{"group": "desk"})
		lines, quiet := f.connect("/lines", bearer(token)), f.connect("/lines", bearer(token))
		listener, err := f.hear("", "", token)
		if err != nil || quiet.send(`{"do":"work"}`) != nil || lines.send(newcomer(fmt.Sprint("early-", life))) != nil {
			t.Fatal("the streams don't begin", err)
		}
		first, err := lines.receive()
		if err != nil || !strings.HasPrefix(first, `{"changes"`) {
			if time.Now().Before(ends) || life > patient {
				t.Fatalf("an edit in its time is answered %s, %v", first, err)
			}
			continue // the machine is busy, and the time was over
		}
		quiet.ends(t, "whose time is over, and who says nothing")
		if time.Now().Before(ends) {
			t.Error("a stream ends before its time is over")
		}
		_ = lines.send(newcomer("late"))
		lines.ends(t, "whose time is over")
		if got := f.as(t, "boss", http.MethodPost, "/lines", newcomer("of-boss")); !strings.HasPrefix(got.body, `{"changes"`) {
			t.Fatalf("who is known edits, and is answered %+v", got)
		}
		if listener.heard(t, "of-boss") {
			t.Error("who listened is told of what came later")
		}
		if got := f.as(t, "boss", http.MethodGet, "/names?list=people", ""); strings.Contains(got.body, "late") {
			t.Errorf("listed are %s", got.body)
		}
		return
	}
}
