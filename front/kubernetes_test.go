package main

import (
	"crypto/sha256"
	"crypto/tls"
	"fmt"
	"net/http"
	"os"
	"path/filepath"
	"strings"
	"testing"
)

// review is what an API server sends of somebody who wants something.
func review(user, asked string) string {
	return `{"kind":"SubjectAccessReview","apiVersion":"authorization.k8s.io/v1","metadata":{"creationTimestamp":null},` +
		`"spec":{` + asked + `,"user":"` + user + `","groups":["dev","system:authenticated"],` +
		`"extra":{"authentication.kubernetes.io/credential-id":["JTI=1"]}},"status":{"allowed":false}}`
}

// pods is a request for pods of a namespace.
func pods(verb, namespace, more string) string {
	return `"resourceAttributes":{"namespace":"` + namespace + `","verb":"` + verb + `","version":"v1","resource":"pods"` + more + `}`
}

var podsReview = review("ann", pods("list", "prod", ""))

// cluster starts a front with the policies of a cluster.
func cluster(t *testing.T, more ...string) *front {
	t.Helper()
	f := begin(t, t.TempDir(), more...)
	content, err := os.ReadFile(filepath.Join("..", "examples", "cluster", "cluster.jsonl"))
	if err != nil {
		t.Fatal(err)
	}
	f.accept(strings.Split(strings.TrimSpace(string(content)), "\n")...)
	return f
}

// sendReview sends a review as an API server does.
func (f *front) sendReview(body string, fields ...string) (int, string) {
	f.t.Helper()
	asked, err := http.NewRequest(http.MethodPost, f.url("/k8s/authorize?timeout=30s"), strings.NewReader(body))
	if err != nil {
		f.t.Fatal(err)
	}
	asked.Header.Set("Content-Type", "application/json")
	asked.Header.Set("Accept", "application/json, */*")
	asked.Header.Set("User-Agent", "kube-apiserver/v1.31.0 (linux/amd64) kubernetes/9edcffc")
	for i := 0; i < len(fields); i += 2 {
		asked.Header.Set(fields[i], fields[i+1])
	}
	answer, err := http.DefaultClient.Do(asked)
	if err != nil {
		f.t.Fatal(err)
	}
	return bodyOf(f.t, answer)
}

// TestKubernetes sends reviews as API servers do, and sees what each is answered by policies of a cluster.
func TestKubernetes(t *testing.T) {
	f := cluster(t)
	allowed, denied := `{"allowed":true,"reason":"Permit"}`, `{"allowed":false,"denied":true,"reason":"Deny"}`
	none := `{"allowed":false,"reason":"NotApplicable: no policy says anything of it"}`
	long := strings.Repeat("n", 300)
	for _, one := range []struct{ user, asked, want string }{
		{"ann", pods("list", "prod", ""), allowed},
		{"ann", pods("get", "prod", `,"name":"web-0"`), allowed},
		{"ann", pods("get", "prod", `,"name":"`+long+`"`), allowed},
		{"ann", pods("get", "prod", `,"name":"web-0","subresource":"log"`), allowed},
		{"ann", pods("create", "prod", `,"name":"web-0","subresource":"exec"`), denied},
		{"ann", pods("delete", "prod", `,"name":"web-0"`), none},
		{"ann", pods("list", "kube-system", ""), none},
		{"ann", pods("get", "prod:pods/log", ""), `{"allowed":false,"reason":"namespace \"prod:pods/log\" has one of :/"}`},
		{"ann", `"nonResourceAttributes":{"path":"/healthz","verb":"get"}`, allowed},
		{"ann", `"nonResourceAttributes":{"path":"/metrics","verb":"get"}`, none},
		{"bob", pods("delete", "prod", `,"name":"web-0"`), `{"allowed":false,"denied":true,"reason":"Permit, with obligations ` +
			`that nobody fulfils here: tell-the-owner"}`},
		{"bob", `"resourceAttributes":{"verb":"list","version":"v1","resource":"nodes"}`, `{"allowed":false,"reason":"Indeterminate",` +
			`"evaluationError":"urn:oasis:names:tc:xacml:1.0:status:missing-attribute`},
	} {
		status, body := f.sendReview(review(one.user, one.asked))
		want := `{"apiVersion":"authorization.k8s.io/v1","kind":"SubjectAccessReview","status":` + one.want
		if status != http.StatusOK || !strings.HasPrefix(body, want) {
			t.Errorf("%s asks %s and is answered %d %s, and not %s", one.user, one.asked, status, body, one.want)
		}
	}
	example, err := os.ReadFile(filepath.Join("..", "examples", "cluster", "review.json"))
	if err != nil {
		t.Fatal(err)
	}
	if status, body := f.sendReview(string(example)); status != http.StatusOK || !strings.Contains(body, allowed) {
		t.Errorf("the example is answered %d %s", status, body)
	}
	var groups []string
	for i := 0; i < 300; i++ {
		groups = append(groups, fmt.Sprintf("g%d", i))
	}
	many := strings.Replace(podsReview, `"dev"`, `"dev","`+strings.Join(groups, `","`)+`"`, 1)
	if status, body := f.sendReview(many); status != http.StatusOK || !strings.Contains(body, `"status":{"allowed":false,"reason":"what is asked `) {
		t.Errorf("a review of many groups is answered %d %s", status, body)
	}
	for body, want := range map[string]string{
		"{": "it isn't JSON", "[]": "it isn't an object",
		strings.Replace(podsReview, "/v1", "/v1beta1", 1): `"place":"/apiVersion"`,
	} {
		if status, told := f.sendReview(body); status != http.StatusBadRequest || !strings.Contains(told, want) {
			t.Errorf("%s is answered %d %s", body, status, told)
		}
	}
	if status, _ := f.sendReview(podsReview, "Content-Type", "application/yaml"); status != http.StatusUnsupportedMediaType {
		t.Errorf("a review in YAML is answered %d", status)
	}
	f.accept(`{"do":"person.add","name":"ann"}`)
	if status, body := f.sendReview(podsReview, "Review-At-Least", "1"); status != http.StatusOK || !strings.Contains(body, allowed) {
		t.Errorf("a review of at least a serial is answered %d %s", status, body)
	}
}

// TestKubernetesRoles sees that reviews are for who may ask, and may say what they say.
func TestKubernetesRoles(t *testing.T) {
	file := filepath.Join(t.TempDir(), "access")
	hash := func(token string) string { return fmt.Sprintf(`"token_sha256":"%x"`, sha256.Sum256([]byte(token))) }
	content := `{"name":"cluster","roles":["ask"],` + hash("c") + `}
{"name":"bare","roles":["ask"],` + hash("b") + `,"gives":{"AccessSubject":["urn:oasis:names:tc:xacml:1.0:subject:subject-id"],"Action":["*"],"Resource":["*"]}}
{"name":"reader","roles":["read"],` + hash("r") + `}
`
	if err := os.WriteFile(file, []byte(content), 0o600); err != nil {
		t.Fatal(err)
	}
	folder := t.TempDir()
	f := begin(t, t.TempDir(), "--access", file, "--decisions", folder)
	for token, want := range map[string]int{"c": http.StatusOK, "b": http.StatusForbidden, "r": http.StatusForbidden, "x": http.StatusUnauthorized} {
		if status, body := f.sendReview(podsReview, "Authorization", "Bearer "+token); status != want {
			t.Errorf("with the token %s a review is answered %d %s", token, status, body)
		}
	}
	eventually(t, "the decision is kept", func() bool {
		kept, _ := filepath.Glob(filepath.Join(folder, "*"))
		for _, file := range kept {
			content, err := os.ReadFile(file)
			if err == nil && strings.Contains(string(content), `"by":"cluster","path":"/k8s/authorize"`) {
				return true
			}
		}
		return false
	})
}

// TestKubernetesCertificate asks as an API server that is known by its certificate, at the host that the front is named
// by, and at another one.
func TestKubernetesCertificate(t *testing.T) {
	own, key := certified(t, t.TempDir(), "api-server")
	s := secure(t, t.TempDir(), own, "--host", "review.example",
		"--access", accessFile(t, `{"name":"cluster","roles":["ask"],"certificate":"api-server"}`))
	for _, one := range []struct {
		host   string
		pairs  []tls.Certificate
		status int
	}{
		{"review.example:8443", []tls.Certificate{loaded(t, own, key)}, http.StatusOK},
		{"review.example:8443", nil, http.StatusUnauthorized},
		{"other.example:8443", []tls.Certificate{loaded(t, own, key)}, http.StatusMisdirectedRequest},
	} {
		asked, err := http.NewRequest(http.MethodPost, "https://"+s.address+"/k8s/authorize?timeout=3s", strings.NewReader(podsReview))
		if err != nil {
			t.Fatal(err)
		}
		asked.Host = one.host
		asked.Header.Set("Content-Type", "application/json")
		config := &tls.Config{RootCAs: s.roots, Certificates: one.pairs}
		answer, err := (&http.Client{Transport: &http.Transport{TLSClientConfig: config}}).Do(asked)
		if err != nil {
			t.Fatal(err)
		}
		if status, body := bodyOf(t, answer); status != one.status {
			t.Errorf("as %s it is answered %d %s", one.host, status, body)
		}
	}
}
