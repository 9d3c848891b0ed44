package kubernetes

import (
	"encoding/json"
	"errors"
	"fmt"
	"strings"
	"testing"

	"review-front/places"
)

// requested is a request as one text: each category's attributes in order.
func requested(t *testing.T, spec string) (string, error) {
	t.Helper()
	root, err := places.Parse([]byte(`{"apiVersion":"authorization.k8s.io/v1","kind":"SubjectAccessReview",` +
		`"metadata":{"creationTimestamp":null},"spec":` + spec + `,"status":{"allowed":false}}`))
	if err != nil {
		t.Fatal(err)
	}
	written, err := Request(root)
	if err != nil {
		return "", err
	}
	var read struct {
		Request struct {
			Category []struct {
				Attribute []struct {
					AttributeId string
					Value       []string
				}
			}
		}
	}
	if err := json.Unmarshal(written, &read); err != nil {
		t.Fatal(err)
	}
	var all []string
	for _, category := range read.Request.Category {
		var those []string
		for _, one := range category.Attribute {
			short := one.AttributeId[strings.LastIndex(one.AttributeId, ":")+1:]
			if strings.HasPrefix(one.AttributeId, "extra:") {
				short = one.AttributeId
			}
			those = append(those, fmt.Sprintf("%s=%q", short, one.Value))
		}
		all = append(all, strings.Join(those, " "))
	}
	return strings.Join(all, " | "), nil
}

// TestRequest reads reviews as API servers send them.
func TestRequest(t *testing.T) {
	for spec, want := range map[string]string{
		// A list of pods in a namespace.
		`{"resourceAttributes":{"namespace":"prod","verb":"list","version":"v1","resource":"pods"},"user":"ann",` +
			`"groups":["dev","system:authenticated"]}`: `subject-id=["ann"] group=["dev" "system:authenticated"] | ` +
			`action-id=["list"] | resource-id=["prod:pods"] namespace=["prod"] api-group=[""] api-version=["v1"] ` +
			`resource=["pods"]`,
		// A scale of a deployment, by a service account, with what its token says.
		`{"resourceAttributes":{"namespace":"prod","verb":"update","group":"apps","version":"v1",` +
			`"resource":"deployments","subresource":"scale","name":"web"},` +
			`"user":"system:serviceaccount:prod:bot","groups":["system:serviceaccounts"],"uid":"7f1e",` +
			`"extra":{"authentication.kubernetes.io/pod-name":["bot-1"],"a":["x","y"],"none":[]}}`: `subject-id=` +
			`["system:serviceaccount:prod:bot"] group=["system:serviceaccounts"] uid=["7f1e"] extra:a=["x" "y"] ` +
			`extra:authentication.kubernetes.io/pod-name=["bot-1"] | action-id=["update"] | ` +
			`resource-id=["prod:deployments.apps/scale"] namespace=["prod"] api-group=["apps"] api-version=["v1"] ` +
			`resource=["deployments"] subresource=["scale"] name=["web"]`,
		// Something of the whole cluster, with selectors, which only narrow what is asked.
		`{"resourceAttributes":{"verb":"get","group":"rbac.authorization.k8s.io","version":"v1","resource":"clusterroles",` +
			`"name":"system:node","fieldSelector":{"rawSelector":"a=b"}},"user":"ann","groups":null,"extra":null}`: `subject-id=` +
			`["ann"] | action-id=["get"] | resource-id=["clusterroles.rbac.authorization.k8s.io"] ` +
			`api-group=["rbac.authorization.k8s.io"] api-version=["v1"] resource=["clusterroles"] name=["system:node"]`,
		// A path that is no resource's.
		`{"nonResourceAttributes":{"path":"/healthz","verb":"get"},"user":"system:anonymous",` +
			`"groups":["system:unauthenticated"]}`: `subject-id=["system:anonymous"] group=["system:unauthenticated"] | ` +
			`action-id=["get"] | resource-id=["/healthz"] path=["/healthz"]`,
		// Groups alone, and everything.
		`{"resourceAttributes":{"verb":"*","group":"*","version":"*","resource":"*"},"groups":["dev"]}`: `group=["dev"] | ` +
			`action-id=["*"] | resource-id=["*.*"] api-group=["*"] api-version=["*"] resource=["*"]`,
	} {
		if got, err := requested(t, spec); err != nil || got != want {
			t.Errorf("%s asks %s, %v, and not %s", spec, got, err, want)
		}
	}
}

// TestUnclear sees that no part makes the id of another resource.
func TestUnclear(t *testing.T) {
	for _, asked := range []string{
		`"resourceAttributes":{"verb":"get","resource":"a:pods"}`, `"resourceAttributes":{"verb":"get","resource":"/healthz"}`,
		`"resourceAttributes":{"verb":"get","resource":"pods/log"}`,
		`"resourceAttributes":{"verb":"get","resource":"deployments.apps"}`,
		`"resourceAttributes":{"verb":"get","resource":"pods","namespace":"a:b"}`,
		`"resourceAttributes":{"verb":"get","resource":"pods","namespace":"a/b"}`,
		`"resourceAttributes":{"verb":"get","resource":"pods","group":"x/log"}`,
		`"resourceAttributes":{"verb":"get","resource":"pods","group":"x:y"}`,
		`"resourceAttributes":{"verb":"get","resource":"pods","subresource":"a:b"}`,
		`"nonResourceAttributes":{"verb":"get","path":"prod:pods"}`, `"nonResourceAttributes":{"verb":"get"}`,
	} {
		_, err := requested(t, `{"user":"ann",`+asked+`}`)
		var unclear *Unclear
		if !errors.As(err, &unclear) {
			t.Errorf("%s is answered %v", asked, err)
		}
	}
}

// TestNoReview reads what is no review, and tells where.
func TestNoReview(t *testing.T) {
	pods := `"resourceAttributes":{"verb":"get","resource":"pods"}`
	for spec, want := range map[string]string{
		`7`:                       "/spec: it isn't an object",
		`{` + pods + `}`:          "/spec: it has user or groups",
		`{"user":7,` + pods + `}`: "/spec/user: it isn't a text",
		`{"user":"ann"}`:          "/spec: it has one of resourceAttributes and nonResourceAttributes",
		`{"user":"ann",` + pods + `,"nonResourceAttributes":{"verb":"get","path":"/"}}`: "/spec: it has one of ",
		`{"user":"ann","resourceAttributes":7}`:                                         "/spec/resourceAttributes: it isn't an object",
		`{"user":"ann","resourceAttributes":{"resource":"pods"}}`:                       "/spec/resourceAttributes: verb is missing",
		`{"user":"ann","resourceAttributes":{"verb":"get"}}`:                            "/spec/resourceAttributes: resource is missing",
		`{"user":"ann","resourceAttributes":{"verb":"get","resource":["pods"]}}`:        "resource: it isn't a text",
		`{"user":"ann","groups":"dev",` + pods + `}`:                                    "/spec/groups: it isn't a list",
		`{"user":"ann","groups":[7],` + pods + `}`:                                      "/spec/groups: a member isn't a text",
		`{"user":"ann","extra":[],` + pods + `}`:                                        "/spec/extra: it isn't an object",
		`{"user":"ann","uid":7,` + pods + `}`:                                           "/spec/uid: it isn't a text",
	} {
		if got, err := requested(t, spec); err == nil || !strings.Contains(err.Error(), want) {
			t.Errorf("%s is answered %s, %v", spec, got, err)
		}
	}
	for review, want := range map[string]string{
		`[]`: "it isn't an object", `{}`: "it isn't ",
		`{"apiVersion":"authorization.k8s.io/v1beta1","kind":"SubjectAccessReview"}`: "/apiVersion: it isn't authorization.k8s.io/v1",
		`{"apiVersion":"authorization.k8s.io/v1","kind":"TokenReview"}`:              "/kind: it isn't SubjectAccessReview",
		`{"apiVersion":"authorization.k8s.io/v1","kind":"SubjectAccessReview"}`:      "spec is missing",
	} {
		root, err := places.Parse([]byte(review))
		if err != nil {
			t.Fatal(err)
		}
		if _, err := Request(root); err == nil || !strings.Contains(err.Error(), want) {
			t.Errorf("%s is answered %v", review, err)
		}
	}
}

// TestAnswer has each decision be answered as it counts for an API server.
func TestAnswer(t *testing.T) {
	obligation := `,"Obligations":[{"Id":"log"},{"Id":"mail"}]`
	for response, want := range map[string]string{
		`{"Decision":"Permit"}`:                   `{"allowed":true,"reason":"Permit"}`,
		`{"Decision":"Permit"` + obligation + `}`: `{"allowed":false,"denied":true,"reason":"Permit, with obligations that nobody fulfils here: log, mail"}`,
		`{"Decision":"Deny"` + obligation + `}`:   `{"allowed":false,"denied":true,"reason":"Deny"}`,
		`{"Decision":"NotApplicable"}`:            `{"allowed":false,"reason":"NotApplicable: no policy says anything of it"}`,
		`{"Decision":"Indeterminate","Status":{"StatusCode":{"Value":"s:missing-attribute"}}}`: `{"allowed":false,"reason":"Indeterminate","evaluationError":"s:missing-attribute"}`,
		`{"Decision":"PERMIT"}`: `{"allowed":false,"reason":"PERMIT"}`,
	} {
		got, err := AnswerOf([]byte(`{"Response":[` + response + `]}`))
		if err != nil {
			t.Fatal(err)
		}
		written, err := json.Marshal(got)
		if err != nil {
			t.Fatal(err)
		}
		if want := `{"apiVersion":"authorization.k8s.io/v1","kind":"SubjectAccessReview","status":` + want + `}`; string(written) != want {
			t.Errorf("%s is answered %s, and not %s", response, written, want)
		}
	}
	for _, response := range []string{`{"Response":[]}`, `{"Response":[{"Decision":"Permit"},{"Decision":"Permit"}]}`, `7`} {
		if got, err := AnswerOf([]byte(response)); err == nil {
			t.Errorf("%s is answered %v", response, got)
		}
	}
}
