package main

import (
	"context"
	"crypto/tls"
	"crypto/x509"
	"crypto/x509/pkix"
	"net"
	"net/http"
	"net/url"
	"os"
	"path/filepath"
	"strings"
	"testing"
	"time"

	"gopkg.in/yaml.v2"
)

// authorization is the configuration of an API server, as apiserver.config.k8s.io/v1 has it: with anything else in it
// that server wouldn't start.
type authorization struct {
	Version     string `yaml:"apiVersion"`
	Kind        string
	Authorizers []struct {
		Type, Name string
		Webhook    *struct {
			Connection struct {
				Type string
				File string `yaml:"kubeConfigFile"`
			} `yaml:"connectionInfo"`
			Review           string `yaml:"subjectAccessReviewVersion"`
			ConditionsReview string `yaml:"matchConditionSubjectAccessReviewVersion"`
			Timeout          time.Duration
			Authorized       time.Duration                 `yaml:"authorizedTTL"`
			Unauthorized     time.Duration                 `yaml:"unauthorizedTTL"`
			Failure          string                        `yaml:"failurePolicy"`
			Conditions       []struct{ Expression string } `yaml:"matchConditions"`
		}
	}
}

// webhook is that of its webhook: where it asks, and as whom.
type webhook struct {
	Version  string `yaml:"apiVersion"`
	Kind     string
	Clusters []struct {
		Name    string
		Cluster struct {
			Server    string
			Authority string `yaml:"certificate-authority"`
		}
	}
	Users []struct {
		Name string
		User struct {
			Certificate string `yaml:"client-certificate"`
			Key         string `yaml:"client-key"`
		}
	}
	Contexts []struct {
		Name    string
		Context struct{ Cluster, User string }
	}
	Current string `yaml:"current-context"`
}

// readYAML reads an example of a cluster, in which nothing may stand twice or be unknown.
func readYAML(t *testing.T, name string, into any) {
	t.Helper()
	content, err := os.ReadFile(filepath.Join("..", "examples", "cluster", name))
	if err == nil {
		err = yaml.UnmarshalStrict(content, into)
	}
	if err != nil {
		t.Fatalf("%s: %v", name, err)
	}
}

// shownWebhook is what the example of a webhook asks: the one server of its current context.
func shownWebhook(t *testing.T) *url.URL {
	t.Helper()
	var read webhook
	readYAML(t, "webhook.kubeconfig", &read)
	if read.Version != "v1" || read.Kind != "Config" ||
		len(read.Clusters) != 1 || len(read.Users) != 1 || len(read.Contexts) != 1 {
		t.Fatalf("the webhook's file has %+v", read)
	}
	cluster, user, by := read.Clusters[0], read.Users[0], read.Contexts[0]
	if by.Name != read.Current || by.Context.Cluster != cluster.Name || by.Context.User != user.Name ||
		cluster.Cluster.Authority == "" || user.User.Certificate == "" || user.User.Key == "" {
		t.Errorf("the webhook's file has %+v", read)
	}
	server, err := url.Parse(cluster.Cluster.Server)
	if err != nil || server.Scheme != "https" {
		t.Fatalf("the webhook asks %s, %v", cluster.Cluster.Server, err)
	}
	return server
}

// TestClusterFiles reads the configuration of an API server as it does, and sees that it says what the page says.
func TestClusterFiles(t *testing.T) {
	var read authorization
	readYAML(t, "authorization.yaml", &read)
	if read.Version != "apiserver.config.k8s.io/v1" || read.Kind != "AuthorizationConfiguration" {
		t.Errorf("it is %s %s", read.Version, read.Kind)
	}
	var order []string
	for _, one := range read.Authorizers {
		order = append(order, one.Type)
		hook := one.Webhook
		if (hook != nil) != (one.Type == "Webhook") {
			t.Errorf("%s %s has a webhook: %v", one.Type, one.Name, hook != nil)
		}
		if hook == nil {
			continue
		}
		// The front answers that version alone, and the page says what failures and kept answers mean.
		if hook.Review != "v1" || hook.ConditionsReview != "v1" || hook.Failure != "Deny" || len(hook.Conditions) == 0 {
			t.Errorf("the webhook is %+v", hook)
		}
		if hook.Timeout <= 0 || hook.Timeout > 30*time.Second || hook.Authorized <= 0 || hook.Unauthorized <= 0 {
			t.Errorf("the webhook's times are %+v", hook)
		}
		if hook.Connection.Type != "KubeConfigFile" || filepath.Base(hook.Connection.File) != "webhook.kubeconfig" {
			t.Errorf("the webhook asks by %+v", hook.Connection)
		}
	}
	if strings.Join(order, " ") != "Node Webhook RBAC" {
		t.Errorf("it asks %v", order)
	}
	page := enforcing(t)
	for _, word := range []string{"`authorizedTTL`", "`unauthorizedTTL`", "`failurePolicy`", "`server`", "`--host`"} {
		if !strings.Contains(strings.Join(strings.Fields(page), " "), word) {
			t.Errorf("the page doesn't tell of %s", word)
		}
	}
	if path := inline(t, page, "/k8s/"); shownWebhook(t).Path != path {
		t.Errorf("the webhook asks at %s, and the page says %s", shownWebhook(t).Path, path)
	}
}

// shownStart starts the front for an API server by the words of the page, and asks it where the examples say.
func shownStart(t *testing.T, block string) {
	server, folder := shownWebhook(t), t.TempDir()
	for name, about := range map[string]*x509.Certificate{
		"review":      {Subject: pkix.Name{CommonName: "review"}, DNSNames: []string{server.Hostname()}},
		"api-servers": {Subject: pkix.Name{CommonName: "api-server"}},
	} {
		_, key := signed(t, folder, name, about)
		if err := os.Rename(key, filepath.Join(folder, name+"-key.pem")); err != nil {
			t.Fatal(err)
		}
	}
	access := inline(t, enforcing(t), `{"name":"cluster"`)
	if err := os.WriteFile(filepath.Join(folder, "access.jsonl"), []byte(access+"\n"), 0o600); err != nil {
		t.Fatal(err)
	}
	if !strings.Contains(block, ":"+server.Port()+" ") || !strings.Contains(block, " --host "+server.Hostname()+" ") {
		t.Errorf("the example asks %s, which isn't the front's of\n%s", server, block)
	}
	words := strings.Fields(strings.ReplaceAll(block, "\\\n", " "))[2:]
	for at, word := range words {
		switch {
		case strings.HasPrefix(word, "--"):
		case words[at-1] == "--program":
			words[at] = theProgram(t)
		case words[at-1] == "--listen":
			words[at] = "127.0.0.1:0"
		case words[at-1] != "--host":
			words[at] = filepath.Join(folder, word)
		}
	}
	f := started(t, "", folder, words)
	eventually(t, "the front listens", func() bool { return strings.Contains(f.log(), "the state stands") })
	f.address = addressOf.FindStringSubmatch(f.log())[1]
	f.asksAs(server, folder)
}

// asksAs asks as an API server does, whose webhook has the files of a folder.
func (f *front) asksAs(server *url.URL, folder string) {
	f.t.Helper()
	authority, err := os.ReadFile(filepath.Join(folder, "review.pem"))
	if err != nil {
		f.t.Fatal(err)
	}
	config := &tls.Config{RootCAs: x509.NewCertPool()}
	config.RootCAs.AppendCertsFromPEM(authority)
	own := filepath.Join(folder, "api-servers")
	pair, err := tls.LoadX509KeyPair(own+".pem", own+"-key.pem")
	if err != nil {
		f.t.Fatal(err)
	}
	config.Certificates = []tls.Certificate{pair}
	client := http.Client{Transport: &http.Transport{
		TLSClientConfig: config,
		DialContext: func(ctx context.Context, network, _ string) (net.Conn, error) {
			return (&net.Dialer{}).DialContext(ctx, network, f.address)
		},
	}}
	asked, err := os.ReadFile(filepath.Join("..", "examples", "cluster", "review.json"))
	if err != nil {
		f.t.Fatal(err)
	}
	answer, err := client.Post(server.String()+"?timeout=3s", "application/json", strings.NewReader(string(asked)))
	if err != nil {
		f.t.Fatal(err)
	}
	status, body := bodyOf(f.t, answer)
	want := `{"apiVersion":"authorization.k8s.io/v1","kind":"SubjectAccessReview",` +
		`"status":{"allowed":false,"reason":"NotApplicable`
	if status != http.StatusOK || !strings.HasPrefix(body, want) {
		f.t.Errorf("it is answered %d %s", status, body)
	}
}
