package access

import (
	"crypto"
	"crypto/ecdsa"
	"crypto/ed25519"
	"crypto/elliptic"
	"crypto/hmac"
	"crypto/rand"
	"crypto/rsa"
	"crypto/sha256"
	"encoding/base64"
	"encoding/hex"
	"encoding/json"
	"errors"
	"math/big"
	"net/http"
	"os"
	"path/filepath"
	"testing"
	"time"
)

// signing are the keys of an issuer, and what of them is told.
type signing struct {
	rsa   *rsa.PrivateKey
	ecdsa *ecdsa.PrivateKey
	ed    ed25519.PrivateKey
}

func encoded(b []byte) string { return base64.RawURLEncoding.EncodeToString(b) }

// newSigning makes keys, and writes the set that is told of them.
func newSigning(t *testing.T, path string) *signing {
	t.Helper()
	s := &signing{}
	var err error
	if s.rsa, err = rsa.GenerateKey(rand.Reader, 2048); err != nil {
		t.Fatal(err)
	}
	if s.ecdsa, err = ecdsa.GenerateKey(elliptic.P256(), rand.Reader); err != nil {
		t.Fatal(err)
	}
	var public ed25519.PublicKey
	if public, s.ed, err = ed25519.GenerateKey(rand.Reader); err != nil {
		t.Fatal(err)
	}
	x, y := s.ecdsa.X.FillBytes(make([]byte, 32)), s.ecdsa.Y.FillBytes(make([]byte, 32))
	n, e := encoded(s.rsa.N.Bytes()), encoded(big.NewInt(int64(s.rsa.E)).Bytes())
	set, err := json.Marshal(map[string]any{"keys": []map[string]string{
		{"kty": "oct", "k": "c2VjcmV0"},
		{"kty": "RSA", "kid": "r", "use": "sig", "n": n, "e": e},
		{"kty": "RSA", "kid": "p", "alg": "PS256", "n": n, "e": e},
		{"kty": "EC", "kid": "e", "crv": "P-256", "x": encoded(x), "y": encoded(y)},
		{"kty": "OKP", "kid": "d", "crv": "Ed25519", "x": encoded(public)},
	}})
	if err == nil {
		err = os.WriteFile(path, set, 0o600)
	}
	if err != nil {
		t.Fatal(err)
	}
	return s
}

// token is a token with a head and claims, signed as the algorithm in the head says, or as its field `by` does.
func (s *signing) token(t *testing.T, head, claims map[string]any) string {
	t.Helper()
	first, err1 := json.Marshal(head)
	second, err2 := json.Marshal(claims)
	if err1 != nil || err2 != nil {
		t.Fatal(err1, err2)
	}
	text := encoded(first) + "." + encoded(second)
	sum := sha256.Sum256([]byte(text))
	var signature []byte
	var err error
	by := head["alg"]
	if other, there := head["by"]; there {
		by = other
	}
	switch by {
	case "RS256":
		signature, err = rsa.SignPKCS1v15(rand.Reader, s.rsa, crypto.SHA256, sum[:])
	case "PS256":
		signature, err = rsa.SignPSS(rand.Reader, s.rsa, crypto.SHA256, sum[:], &rsa.PSSOptions{SaltLength: sha256.Size})
	case "ES256":
		r, v, failed := ecdsa.Sign(rand.Reader, s.ecdsa, sum[:])
		err = failed
		signature = append(r.FillBytes(make([]byte, 32)), v.FillBytes(make([]byte, 32))...)
	case "EdDSA":
		signature = ed25519.Sign(s.ed, []byte(text))
	case "HS256":
		// By what is told of a key, as one who takes the algorithm from the token would see it.
		mac := hmac.New(sha256.New, s.rsa.N.Bytes())
		mac.Write([]byte(text))
		signature = mac.Sum(nil)
	}
	if err != nil {
		t.Fatal(err)
	}
	return text + "." + encoded(signature)
}

// TestIssuer takes tokens that the issuer signed, and no others.
func TestIssuer(t *testing.T) {
	path := filepath.Join(t.TempDir(), "keys")
	s, other := newSigning(t, path), newSigning(t, filepath.Join(t.TempDir(), "keys"))
	i, err := readIssuer(Options{Issuer: "https://id.example", Keys: path, Audience: "review"})
	if err != nil {
		t.Fatal(err)
	}
	now := time.Now()
	claims := func(more ...any) map[string]any {
		all := map[string]any{"iss": "https://id.example", "aud": []string{"x", "review"}, "sub": "ann", "exp": now.Add(time.Hour).Unix()}
		for at := 0; at+1 < len(more); at += 2 {
			if all[more[at].(string)] = more[at+1]; more[at+1] == nil {
				delete(all, more[at].(string))
			}
		}
		return all
	}
	head := func(algorithm, id string) map[string]any { return map[string]any{"alg": algorithm, "kid": id} }
	for algorithm, id := range map[string]string{"RS256": "r", "PS256": "p", "ES256": "e", "EdDSA": "d"} {
		told, until, err := i.verify(s.token(t, head(algorithm, id), claims("groups", []string{"a", "b"})), now)
		if err != nil || told["sub"][0] != "ann" || !has(told["groups"], "b") || until.Unix() != now.Add(time.Hour).Unix() {
			t.Errorf("%s: %v until %v, %v", algorithm, told, until, err)
		}
		if _, _, err := i.verify(s.token(t, map[string]any{"alg": algorithm}, claims("nbf", now.Unix(), "aud", "review")), now); err != nil {
			t.Errorf("%s, without a key's id: %v", algorithm, err)
		}
		for what, token := range map[string]string{
			"another's key":      other.token(t, head(algorithm, id), claims()),
			"another's id":       s.token(t, head(algorithm, "x"), claims()),
			"another issuer":     s.token(t, head(algorithm, id), claims("iss", "https://id.example.org")),
			"another audience":   s.token(t, head(algorithm, id), claims("aud", "other")),
			"no audience":        s.token(t, head(algorithm, id), claims("aud", nil)),
			"no subject":         s.token(t, head(algorithm, id), claims("sub", nil)),
			"no end":             s.token(t, head(algorithm, id), claims("exp", nil)),
			"a time that's over": s.token(t, head(algorithm, id), claims("exp", now.Add(-time.Second).Unix())),
			"an end as text":     s.token(t, head(algorithm, id), claims("exp", "never")),
			"a time to come":     s.token(t, head(algorithm, id), claims("nbf", now.Add(time.Hour).Unix())),
			"a field crit":       s.token(t, map[string]any{"alg": algorithm, "kid": id, "crit": []string{"x"}}, claims()),
			"alg: none":          s.token(t, head("none", id), claims()),
			"alg: HS256":         s.token(t, head("HS256", id), claims()),
			"no algorithm":       s.token(t, map[string]any{"kid": id}, claims()),
		} {
			if _, _, err := i.verify(token, now); !errors.Is(err, ErrIssued) {
				t.Errorf("%s, %s: %v", algorithm, what, err)
			}
		}
	}
	confused := s.token(t, map[string]any{"alg": "PS256", "kid": "r", "by": "RS256"}, claims())
	if _, _, err := i.verify(confused, now); !errors.Is(err, ErrIssued) {
		t.Errorf("signed by another algorithm than it says: %v", err)
	}
	good := s.token(t, head("RS256", "r"), claims())
	for at := 0; at < len(good); at += 7 {
		changed := []byte(good)
		if changed[at] = 'A'; good[at] == 'A' {
			changed[at] = 'B'
		}
		if _, _, err := i.verify(string(changed), now); err == nil {
			t.Errorf("with another byte %d it is taken", at)
		}
	}
}

// TestGate finds out who asks: by tokens of both kinds, certificates and users, the token before the others.
func TestGate(t *testing.T) {
	folder := t.TempDir()
	s := newSigning(t, filepath.Join(folder, "keys"))
	sum := sha256.Sum256([]byte("secret"))
	file := `{"name":"plain","roles":["ask"],"token_sha256":"` + hex.EncodeToString(sum[:]) + `"}
{"name":"cert","roles":["read"],"certificate":"c"}
{"name":"local","roles":["edit"],"unix":"u"}
{"claim":{"groups":"auditors"},"roles":["audit"],"gives":{"Action":["*"]}}
{"subject":"ann","roles":["operate"],"gives":{"Resource":["x"]}}
`
	if err := os.WriteFile(filepath.Join(folder, "access"), []byte(file), 0o600); err != nil {
		t.Fatal(err)
	}
	g, err := Open(Options{
		File: filepath.Join(folder, "access"), Issuer: "i", Keys: filepath.Join(folder, "keys"), Audience: "a",
	})
	if err != nil {
		t.Fatal(err)
	}
	issued := func(subject string, groups ...string) string {
		claims := map[string]any{"iss": "i", "aud": "a", "sub": subject, "groups": groups, "exp": time.Now().Add(time.Hour).Unix()}
		return "Bearer " + s.token(t, map[string]any{"alg": "ES256", "kid": "e"}, claims)
	}
	for _, one := range []struct {
		fields []string
		way    Way
		name   string // nothing: he isn't known
		may    string
	}{
		{[]string{"Bearer secret"}, Way{Certificate: "c"}, "plain", "ask"}, {[]string{"bearer  secret"}, Way{}, "plain", "ask"},
		{nil, Way{Certificate: "c"}, "cert", "table"}, {nil, Way{User: "u"}, "local", "person.add"},
		{[]string{issued("ann")}, Way{}, "ann", "dump"}, {[]string{issued("ben", "x", "auditors")}, Way{}, "ben", "notices"},
		{[]string{issued("ann", "auditors")}, Way{}, "ann", "notices"},
		{[]string{issued("ben", "x")}, Way{}, "", ""}, {[]string{"Bearer other"}, Way{Certificate: "c"}, "", ""},
		{[]string{"Bearer secret", "Bearer secret"}, Way{}, "", ""}, {nil, Way{Certificate: "d"}, "", ""}, {nil, Way{}, "", ""},
		{[]string{"Basic secret"}, Way{User: "u"}, "", ""}, {[]string{"Bearer"}, Way{User: "u"}, "", ""},
	} {
		who, err := g.Of(http.Header{"Authorization": one.fields}, one.way)
		if (err == nil) != (one.name != "") || err == nil && (who.Name != one.name || !who.May(one.may) || who.May("policy.find")) {
			t.Errorf("%v, %v: %+v, %v, and not %s", one.fields, one.way, who, err, one.name)
		}
	}
	both, err := g.Of(http.Header{"Authorization": {issued("ann", "auditors")}}, Way{})
	if err != nil || both.Gives == nil || len(*both.Gives) != 2 || !both.May("dump") {
		t.Errorf("who is meant twice is %+v, %v", both, err)
	}
}

// TestSlowing lets an address attempt much: at first it is answered at once, then later and later, and then not.
func TestSlowing(t *testing.T) {
	s, now := newSlowing(), time.Now()
	for i := 0; i < freeAttempts; i++ {
		if wait, ok := s.next("a", now); wait != 0 || !ok {
			t.Fatalf("attempt %d waits %v, %v", i, wait, ok)
		}
	}
	for i := time.Duration(1); i <= mostPause/attemptPause; i++ {
		if wait, ok := s.next("a", now); wait != i*attemptPause || !ok {
			t.Fatalf("attempt %d behind these waits %v, %v", i, wait, ok)
		}
	}
	if _, ok := s.next("a", now); ok {
		t.Error("one that would wait too long is answered")
	}
	if wait, ok := s.next("b", now); wait != 0 || !ok {
		t.Errorf("another address waits %v, %v", wait, ok)
	}
	if wait, ok := s.next("a", now.Add(time.Minute)); wait != 0 || !ok {
		t.Errorf("a minute later it waits %v, %v", wait, ok)
	}
}

// TestUsers reads files that say who may what as nobody could mean it.
func TestUsers(t *testing.T) {
	for _, content := range []string{
		`{"name":"a","roles":["read"]}`,
		`{"name":"a","roles":["read"],"unix":"a","certificate":"a"}`,
		`{"roles":["read"],"unix":"a"}`,
		`{"name":"a","roles":["read"],"subject":"a"}`,
		`{"name":"a","roles":["reader"],"unix":"a"}`,
		`{"name":"a","rolls":["read"],"unix":"a"}`,
		`{"name":"a","roles":["read"],"token_sha256":"ab"}`,
		`{"role":"read","commands":["table"]}`,
		`{"role":"mine","commands":["tables"]}`,
		`{"name":"a"} {"name":"b"}`,
		`nothing`,
	} {
		path := filepath.Join(t.TempDir(), "users")
		if err := os.WriteFile(path, []byte("# who may what\n\n"+content+"\n"), 0o600); err != nil {
			t.Fatal(err)
		}
		if users, err := readUsers(path); err == nil {
			t.Errorf("%s is read as %v", content, users)
		}
	}
}

// TestTypes takes tokens by the type that their head tells, and not those that are for something else.
func TestTypes(t *testing.T) {
	path := filepath.Join(t.TempDir(), "keys")
	s := newSigning(t, path)
	claims := map[string]any{"iss": "i", "aud": "a", "sub": "ann", "exp": time.Now().Add(time.Hour).Unix()}
	for _, one := range []struct {
		types []string
		taken []any // what may stand at `typ`; nothing stands there for untold
		not   []any
	}{
		{nil, []any{untold, "JWT", "jwt", "at+jwt", "application/at+jwt", "Application/AT+JWT"},
			[]any{"", "logout+jwt", "dpop+jwt", "secevent+jwt", "at+jwt ", "x/at+jwt", 7, nil, []string{"JWT"}}},
		{[]string{"at+jwt"}, []any{"at+jwt", "application/at+jwt"}, []any{untold, "JWT", "", nil}},
		{[]string{"application/at+jwt", "own/x"}, []any{"AT+jwt", "own/x"}, []any{untold, "x", "JWT", "application/own/x"}},
	} {
		i, err := readIssuer(Options{Issuer: "i", Keys: path, Audience: "a", Types: one.types})
		if err != nil {
			t.Fatal(err)
		}
		for at, typ := range append(append([]any(nil), one.taken...), one.not...) {
			head := map[string]any{"alg": "EdDSA", "kid": "d", "typ": typ}
			if typ == untold {
				delete(head, "typ")
			}
			_, _, err := i.verify(s.token(t, head, claims), time.Now())
			if isTaken := at < len(one.taken); (err == nil) != isTaken || err != nil && !errors.Is(err, ErrIssued) {
				t.Errorf("with the types %q, a token of type %v: %v", one.types, typ, err)
			}
		}
	}
}

// untold stands for a head that tells no type.
const untold = "no type"

// TestLocalNames shows tokens of an issuer whose subjects are names that the file gives to others, or look like them.
func TestLocalNames(t *testing.T) {
	folder := t.TempDir()
	s := newSigning(t, filepath.Join(folder, "keys"))
	file := `{"name":"Root","roles":["edit"],"unix":"root"}
{"claim":{"group":"desk"},"roles":["ask"]}
{"subject":"ben","roles":["ask"]}
`
	write := func(content string) {
		if err := os.WriteFile(filepath.Join(folder, "access"), []byte(content), 0o600); err != nil {
			t.Fatal(err)
		}
	}
	write(file)
	options := Options{
		File: filepath.Join(folder, "access"), Issuer: "i", Keys: filepath.Join(folder, "keys"), Audience: "a",
	}
	g, err := Open(options)
	if err != nil {
		t.Fatal(err)
	}
	for subject, want := range map[string]error{
		"Root": ErrTaken, "root": ErrTaken, "ROOT": ErrTaken, " root": ErrTaken, "ro\u200bot": ErrTaken, "root\n": ErrTaken,
		"ro\u00adot": ErrTaken, "roo": nil, "root2": nil, "ben": nil,
	} {
		token := s.token(t, map[string]any{"alg": "EdDSA", "kid": "d"}, map[string]any{
			"iss": "i", "aud": "a", "sub": subject, "group": "desk", "exp": time.Now().Add(time.Hour).Unix(),
		})
		who, err := g.Of(http.Header{"Authorization": {"Bearer " + token}}, Way{})
		if !errors.Is(err, want) || err == nil && who.Name != subject {
			t.Errorf("whose subject is %q is %+v, %v", subject, who, err)
		}
	}
	for more, count := range map[string]int{
		"": 0, `{"subject":"root","roles":["read"]}`: 1, `{"name":"BEN","roles":["read"],"certificate":"b"}`: 1,
	} {
		write(file + more)
		g, err := Open(options)
		if err != nil || len(g.Unknowable()) != count {
			t.Errorf("with %s these lines are told: %q, %v", more, g.Unknowable(), err)
		}
	}
}
