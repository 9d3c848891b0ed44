package main

import (
	"context"
	"crypto/sha256"
	"encoding/hex"
	"encoding/json"
	"fmt"
	"io"
	"math/rand"
	"net"
	"net/http"
	"os"
	"os/user"
	"path/filepath"
	"strings"
	"syscall"
	"testing"

	"review-front/access"
	"review-front/commands"
	"review-front/line"
)

// tokenOf is the token of a user of tests.
func tokenOf(name string) string { return "token-of-" + name }

// entry is the line of a user with a token.
func entry(name string, roles ...string) string {
	sum := sha256.Sum256([]byte(tokenOf(name)))
	written, _ := json.Marshal(map[string]any{"name": name, "roles": roles, "token_sha256": hex.EncodeToString(sum[:])})
	return string(written)
}

// accessFile writes who may what.
func accessFile(t testing.TB, lines ...string) string {
	t.Helper()
	path := filepath.Join(t.TempDir(), "access")
	if err := os.WriteFile(path, []byte(strings.Join(lines, "\n")+"\n"), 0o600); err != nil {
		t.Fatal(err)
	}
	return path
}

// as asks as a user.
func (f *front) as(t testing.TB, name, method, path, body string, fields ...string) answer {
	t.Helper()
	return f.send(t, method, path, body, append(fields, "Authorization", "Bearer "+tokenOf(name))...)
}

// TestRoles has each role send each command, as a line and by its path: it is refused where the role hasn't it, and
// reaches the program where it has.
func TestRoles(t *testing.T) {
	lines := []string{`{"role":"desk","commands":["person.add","who"]}`, entry("desk", "desk"), entry("nothing")}
	has := map[string]map[string]bool{"desk": {"person.add": true, "who": true}, "nothing": {}}
	for role, commands := range access.Roles {
		lines = append(lines, entry(role, role))
		has[role] = map[string]bool{}
		for _, command := range commands {
			has[role][command] = true
		}
	}
	f := begin(t, t.TempDir(), "--access", accessFile(t, lines...))
	for word := range commands.In(t, "../tools") {
		for role := range has {
			l := fmt.Sprintf(`{"do":%q,"x":1}`, word)
			for _, got := range []answer{
				f.as(t, role, http.MethodPost, "/lines", l),
				f.as(t, role, http.MethodPost, "/commands/"+word, `{"x":1}`),
			} {
				if forbidden := strings.Contains(got.body, `"status":403`); forbidden == has[role][word] {
					t.Errorf("%s sends %s, and is answered %+v", role, word, got)
				}
			}
		}
	}
	for path, command := range map[string]string{
		"/table": "table", "/dump": "dump", "/metrics": "metrics", "/can/ann": "can", "/sessions/x/notices": "notices",
	} {
		for role := range has {
			if got := f.as(t, role, http.MethodGet, path, ""); (got.status == http.StatusForbidden) == has[role][command] {
				t.Errorf("%s asks for %s, and is answered %+v", role, path, got)
			}
		}
	}
	for role := range has {
		got := f.as(t, role, http.MethodPost, "/authorize", requestOf("ann", "read", "plan"))
		if (got.status == http.StatusForbidden) == has[role]["ask"] {
			t.Errorf("%s asks for a decision, and is answered %+v", role, got)
		}
		for _, query := range []string{"?whole=1", "?dry=1"} {
			got := f.as(t, role, http.MethodPost, "/lines"+query, `{"do":"root.set","reference":null}`)
			if role != "edit" && got.status != http.StatusForbidden {
				t.Errorf("%s sends lines with %s, and is answered %+v", role, query, got)
			}
		}
	}
}

// TestWays shows who asks in wrong ways, and reads again who may what.
func TestWays(t *testing.T) {
	path := accessFile(t, entry("ann", "read", "edit"), entry("ben", "ask"))
	folder := t.TempDir()
	f := begin(t, folder, "--access", path)
	for _, fields := range [][]string{
		nil,
		{"Authorization", "Bearer " + tokenOf("nobody")},
		{"Authorization", "Bearer "},
		{"Authorization", "Basic YW5uOmFubg=="},
		{"Authorization", tokenOf("ann")},
	} {
		if got := f.send(t, http.MethodGet, "/counts", "", fields...); got.status != http.StatusUnauthorized {
			t.Errorf("with %v it is answered %+v", fields, got)
		}
	}
	if !strings.Contains(f.log(), "somebody was refused") {
		t.Error("that isn't told")
	}
	if got := f.as(t, "ann", http.MethodPost, "/lines", noting("x", 1)); !strings.HasPrefix(got.body, `{"changes"`) {
		t.Errorf("who is known is answered %+v", got)
	}
	if err := os.WriteFile(path, []byte(entry("ben", "read")+"\n"), 0o600); err != nil {
		t.Fatal(err)
	}
	_ = f.process.Process.Signal(syscall.SIGHUP)
	eventually(t, "it is read again", func() bool { return strings.Contains(f.log(), "who may what was read again") })
	if got := f.as(t, "ben", http.MethodGet, "/counts", ""); got.status != http.StatusOK {
		t.Errorf("who got a role is answered %+v", got)
	}
	if got := f.as(t, "ann", http.MethodGet, "/counts", ""); got.status != http.StatusUnauthorized {
		t.Errorf("who is known no more is answered %+v", got)
	}
	if err := os.WriteFile(path, []byte("nonsense\n"), 0o600); err != nil {
		t.Fatal(err)
	}
	_ = f.process.Process.Signal(syscall.SIGHUP)
	eventually(t, "it can't be read again", func() bool { return strings.Contains(f.log(), "can't be read again") })
	if got := f.as(t, "ben", http.MethodGet, "/counts", ""); got.status != http.StatusOK {
		t.Errorf("behind a file that can't be read it is answered %+v", got)
	}
	f.kill()
	said := &strings.Builder{}
	if status := history([]string{"--journal", folder}, said, io.Discard); status != 0 || !strings.Contains(said.String(), `"by":"ann"`) {
		t.Errorf("the history has %s", said)
	}
	for _, words := range [][]string{{"--listen", "0.0.0.0:0"}, {"--listen", ":0"}, {"--access", path}} {
		if f := launch(t, t.TempDir(), words...); f.status() == 0 {
			t.Errorf("with %v the front serves", words)
		}
	}
}

// TestGivenAttributes asks for somebody who may give the names alone.
func TestGivenAttributes(t *testing.T) {
	gives := `,"gives":{"AccessSubject":["urn:oasis:names:tc:xacml:1.0:subject:subject-id"],"Action":["*"],"Resource":["*"]}}`
	f := begin(t, t.TempDir(), "--access", accessFile(t, entry("all", "ask", "edit"),
		strings.TrimSuffix(entry("pep", "ask"), "}")+gives))
	if got := f.as(t, "all", http.MethodPost, "/lines", strings.Join(clinic(t), "\n")); got.status != http.StatusOK {
		t.Fatalf("the clinic is answered %+v", got)
	}
	plain := requestOf("hana", "write", "record-moss")
	more := strings.Replace(plain, `"AccessSubject":{"Attribute":{`, `"AccessSubject":{"Attribute":[{"AttributeId":"role","Value":"doctor"},{`, 1)
	more = strings.Replace(more, `"hana"}}`, `"hana"}]}`, 1)
	for who, want := range map[string]string{"all": `"Decision":"Permit"`, "pep": `may not give \"role\"`} {
		if got := f.as(t, who, http.MethodPost, "/authorize", plain); !strings.Contains(got.body, `"Decision":"Deny"`) {
			t.Errorf("%s is answered %+v", who, got)
		}
		for _, got := range []answer{
			f.as(t, who, http.MethodPost, "/authorize", more),
			f.as(t, who, http.MethodPost, "/commands/ask", `{"request":`+more+`}`),
			f.as(t, who, http.MethodPost, "/lines", strings.ReplaceAll(`{"do":"ask","request":`+more+`}`, "\n", " ")),
		} {
			if !strings.Contains(got.body, want) {
				t.Errorf("%s gives a role, and is answered %+v, and not %s", who, got, want)
			}
		}
	}
}

// TestRights has policies decide who may send which line, as those of the example do.
func TestRights(t *testing.T) {
	claims := func(l, claims string) string { return strings.TrimSuffix(l, "}") + `,"claims":` + claims + `}` }
	file := accessFile(t, claims(entry("ada", "read", "edit"), `{"head-of":["surgery"]}`), entry("emil", "read", "edit"),
		claims(entry("dina", "edit"), `{"writes":["records"]}`), entry("desk", "ask", "read"))
	state := filepath.Join(t.TempDir(), "rights")
	content, err := os.ReadFile(filepath.Join("..", "examples", "rights", "rights.jsonl"))
	if err == nil {
		err = os.WriteFile(state, content, 0o600)
	}
	if err != nil {
		t.Fatal(err)
	}
	f := begin(t, t.TempDir(), "--access", file, "--rights", state)
	row := `{"do":"attr.set","category":"AccessSubject","entity":%q,"attribute":"role","type":"string","values":["doctor"]}`
	policy := `{"do":"policy.add","document":{"Policy":{"PolicyId":%q,"Version":"1","RuleCombiningAlgId":` +
		`"urn:oasis:names:tc:xacml:3.0:rule-combining-algorithm:deny-unless-permit"}}}`
	for _, one := range []struct {
		who, line string
		permitted bool
	}{
		{"ada", fmt.Sprintf(row, "emil"), true}, {"ada", fmt.Sprintf(row, "chen"), false}, {"ada", fmt.Sprintf(row, "ada"), false},
		{"emil", fmt.Sprintf(row, "emil"), false}, {"emil", `{"do":"counts"}`, false}, {"ada", `{"do":"counts"}`, true},
		{"dina", fmt.Sprintf(policy, "records"), true}, {"dina", fmt.Sprintf(policy, "drugs"), false},
		{"ada", fmt.Sprintf(policy, "records"), false}, {"dina", `{"do":"root.set","reference":{"PolicyIdReference":{"Id":"records"}}}`, false},
	} {
		got := f.as(t, one.who, http.MethodPost, "/lines", one.line)
		if strings.Contains(got.body, `"status":403`) == one.permitted {
			t.Errorf("%s sends %s, and is answered %+v", one.who, one.line, got)
		}
	}
	for who, status := range map[string]int{"ada": http.StatusOK, "desk": http.StatusForbidden} {
		if got := f.as(t, who, http.MethodGet, "/counts", ""); got.status != status {
			t.Errorf("%s asks for the counts, and is answered %+v", who, got)
		}
	}
	if got := f.as(t, "desk", http.MethodPost, "/authorize", requestOf("ada", "read", "rota")); got.status != http.StatusOK {
		t.Errorf("the desk is answered %+v", got)
	}
	// A root that leads nowhere is Indeterminate for everybody: nobody may anything.
	nowhere := append(content, `{"do":"root.set","reference":{"PolicyIdReference":{"Id":"none"}}}`+"\n"...)
	if err := os.WriteFile(state, nowhere, 0o600); err != nil {
		t.Fatal(err)
	}
	_ = f.process.Process.Signal(syscall.SIGHUP)
	eventually(t, "it is read again", func() bool { return strings.Contains(f.log(), "who may what was read again") })
	for _, who := range []string{"ada", "desk"} {
		if got := f.as(t, who, http.MethodPost, "/authorize", requestOf("ada", "read", "rota")); got.status != http.StatusForbidden {
			t.Errorf("where it is Indeterminate %s is answered %+v", who, got)
		}
	}
}

// TestAuthzenRoles asks AuthZEN's paths: what they ask is looked at as what /authorize asks.
func TestAuthzenRoles(t *testing.T) {
	gives := `,"gives":{"AccessSubject":["*"],"Action":["*"],"Resource":["urn:oasis:names:tc:xacml:1.0:resource:resource-id"]}}`
	f := begin(t, t.TempDir(), "--authzen", filepath.Join(todoFolder, "authzen.json"), "--access", accessFile(t,
		entry("all", "ask", "read"), entry("reader", "read"), strings.TrimSuffix(entry("pep", "ask"), "}")+gives))
	plain := `{"subject":{"type":"user","id":"x"},"action":{"name":"can_read_todos"},"resource":{"type":"todo","id":"1"}}`
	more := strings.Replace(plain, `"id":"1"`, `"id":"1","properties":{"ownerID":"x"}`, 1)
	for _, one := range []struct {
		who, path, body string
		status          int
	}{
		{"all", "evaluation", plain, 200}, {"all", "evaluation", more, 200}, {"reader", "evaluation", plain, 403},
		{"pep", "evaluation", plain, 200}, {"pep", "evaluation", more, 403},
		{"pep", "evaluations", `{"evaluations":[` + plain + `,` + more + `]}`, 403},
		{"reader", "evaluations", `{"evaluations":[` + plain + `]}`, 403}, {"pep", "search/subject", plain, 403},
	} {
		if got := f.as(t, one.who, http.MethodPost, "/access/v1/"+one.path, one.body, "Content-Type", "application/json"); got.status != one.status {
			t.Errorf("%s asks %s of %s, and is answered %+v, and not by %d", one.who, one.path, one.body, got, one.status)
		}
	}
}

// TestSocket asks over a Unix socket: who is at its other end is known by his user.
func TestSocket(t *testing.T) {
	self, err := user.Current()
	if err != nil {
		t.Fatal(err)
	}
	for name, status := range map[string]int{self.Username: http.StatusOK, "nobody": http.StatusUnauthorized} {
		at := filepath.Join(t.TempDir(), "socket")
		f := launch(t, t.TempDir(), "--listen", "unix:"+at, "--access",
			accessFile(t, fmt.Sprintf(`{"name":"me","roles":["read"],"unix":%q}`, name)))
		client := &http.Client{Transport: &http.Transport{DialContext: func(context.Context, string, string) (net.Conn, error) {
			return net.Dial("unix", at)
		}}}
		eventually(t, "the front is ready", func() bool {
			answer, err := client.Get("http://localhost/readyz")
			if err != nil {
				return false
			}
			answer.Body.Close()
			return answer.StatusCode == http.StatusOK
		})
		answer, err := client.Get("http://localhost/counts")
		if err != nil {
			t.Fatal(err)
		}
		if got, body := bodyOf(t, answer); got != status {
			t.Errorf("%s is answered %d %s", name, got, body)
		}
		f.kill()
	}
}

// mutated is a line of which some bytes, keys or words are others.
func mutated(random *rand.Rand, l string) string {
	word := func() string { return changing[random.Intn(len(changing))] }
	for changes := 1 + random.Intn(2); changes > 0; changes-- {
		switch random.Intn(10) {
		case 0:
			l = strings.Replace(l, `{`, fmt.Sprintf(`{"do":%q,`, word()), 1)
		case 1:
			l = strings.TrimSuffix(l, "}") + fmt.Sprintf(`,"do":%q}`, word())
		case 2:
			l = strings.Replace(l, `"do"`, []string{`"\u0064o"`, `"d\u006f"`, `"d\u006F"`, `"DO"`, `"do "`, `"do\u0000"`, `"d\/o"`}[random.Intn(7)], 1)
		case 3:
			l = strings.TrimSuffix(l, "}") + fmt.Sprintf(`,"\u0064\u006f":%q}`, word())
		case 4:
			l = strings.Replace(l, `{`, fmt.Sprintf(`{"name":{"do":%q},`, word()), 1)
		case 5:
			l = strings.Replace(l, `.`, []string{`\u002e`, `\u002E`, `\.`, `. `, "\xff", "\xc0\xae"}[random.Intn(6)], 1)
		case 6:
			at := random.Intn(len(l))
			l = l[:at] + string([]byte{byte(random.Intn(256))}) + l[at:]
		case 7:
			at := random.Intn(len(l))
			l = l[:at] + l[at+1:]
		case 8:
			at, by := random.Intn(len(l)), []string{" ", "\t", "\r", "\f", "\u00a0", "\ufeff", "\\", "\"", ",", "}", "{", "[", "\\ud800"}
			l = l[:at] + by[random.Intn(len(by))] + l[at:]
		case 9:
			l = l + []string{" ", "}", "{}", "//", `{"do":"counts"}`, "\x00", "\r"}[random.Intn(7)]
		}
		if l == "" {
			l = " "
		}
	}
	return strings.ReplaceAll(l, "\n", " ")
}

// changing are commands that some lines of the test name beside their own.
var changing = []string{"counts", "work", "person.add", "person.drop", "action.add", "day.set", "root.set", "attr.set", "table", "mark"}

// told is what a reply, and what stands before and behind it, tell of the command that the program read.
func told(reply string, before, behind map[string]float64, day bool) string {
	for start, command := range map[string]string{
		`{"counts"`: "counts", `{"evaluations"`: "work", `{"table"`: "table", `{"mark"`: "mark", `{"format"`: "format",
		`{"cell"`: "cell", `{"can"`: "can", `{"who"`: "who", `{"dump"`: "dump", `{"state"`: "state", `{"notices"`: "notices",
		`{"Response"`: "ask", `{"faults"`: "faults", `{"documents"`: "documents", `{"attributes"`: "attributes",
		`{"cells"`: "cells", `{"explain"`: "explain", `{"by_rule"`: "by_rule", `{"limits"`: "limits", `{"names"`: "names",
	} {
		if strings.HasPrefix(reply, start) {
			return command
		}
	}
	if !strings.HasPrefix(reply, `{"changes"`) {
		return ""
	}
	for _, one := range []struct{ key, more, less string }{
		{"people", "person.add", "person.drop"}, {"actions", "action.add", "action.drop"},
		{"resources", "resource.add", "resource.drop"}, {"documents", "policy.add", "policy.withdraw"},
	} {
		if behind[one.key] > before[one.key] {
			return one.more
		} else if behind[one.key] < before[one.key] {
			return one.less
		}
	}
	if day {
		return "day.set"
	}
	return "an edit"
}

// stateOf is the numbers of a state, and its day.
func stateOf(t *testing.T, w *twin) (map[string]float64, string) {
	t.Helper()
	var said struct{ State map[string]json.RawMessage }
	if err := json.Unmarshal([]byte(w.ask(`{"do":"state"}`)), &said); err != nil {
		t.Fatal(err)
	}
	numbers := map[string]float64{}
	for key, written := range said.State {
		var number float64
		if json.Unmarshal(written, &number) == nil {
			numbers[key] = number
		}
	}
	return numbers, string(said.State["environment"])
}

// TestReadAsTheProgram sends mutated lines to the program: of none that it takes does the front read another command.
func TestReadAsTheProgram(t *testing.T) {
	w := newTwin(t)
	for _, l := range clinic(t) {
		w.ask(l)
	}
	lines := []string{
		`{"do":"counts"}`, `{"do":"work"}`, `{"do":"table"}`, `{"do":"mark","session":3}`, `{"do":"format","version":2}`,
		`{"do":"cell","person":"ada","action":"read","resource":"rota"}`, `{"do":"can","person":"ada"}`,
		`{"do":"who","action":"read","resource":"rota"}`, `{"do":"state"}`, `{"do":"faults"}`, `{"do":"documents"}`,
		`{"do":"person.add","name":"zoe"}`, `{"do":"person.drop","name":"zoe"}`, `{"do":"action.add","name":"see"}`,
		`{"do":"action.drop","name":"see"}`, `{"do":"resource.add","name":"box"}`, `{"do":"resource.drop","name":"box"}`,
		`{"do":"day.set","day":"2026-01-01"}`, `{"do":"day.set","day":null}`, `{"do":"root.set","reference":null}`,
		`{"do":"attr.set","category":"Action","entity":"see","attribute":"n","type":"integer","values":[1]}`,
	}
	random := rand.New(rand.NewSource(11))
	taken, before := 0, map[string]float64(nil)
	before, day := stateOf(t, w)
	for i := 0; i < 10_000; i++ {
		l := mutated(random, lines[random.Intn(len(lines))])
		reply := w.ask(l)
		if strings.HasPrefix(reply, `{"refused"`) {
			continue
		}
		taken++
		behind, now := before, day
		if strings.HasPrefix(reply, `{"changes"`) {
			behind, now = stateOf(t, w)
		}
		command := told(reply, before, behind, now != day)
		read, ok := line.Do([]byte(l))
		isEdit := command == "an edit" && (strings.HasSuffix(read, ".set") || strings.HasPrefix(read, "policy."))
		if !ok || read != command && !isEdit && !(command == "day.set" && read == "moment.set") {
			t.Fatalf("%q is answered %.100s, which is that of %q, and read as %q, %v", l, reply, command, read, ok)
		}
		before, day = behind, now
	}
	if taken < 1000 {
		t.Errorf("of 10,000 lines %d were taken", taken)
	}
	t.Logf("of 10,000 lines %d were taken", taken)
}
