package main

import (
	"net/http"
	"strings"
	"testing"
)

// TestByRule asks which cells rules decide: of an id that no stored document and no element within one has it is told
// that it isn't there, with ids that are near; of one that there is and that decides nothing, that nothing is decided.
func TestByRule(t *testing.T) {
	f := begin(t, t.TempDir())
	const rule = `,"RuleCombiningAlgId":"urn:oasis:names:tc:xacml:3.0:rule-combining-algorithm:deny-overrides"}}`
	f.accept(
		`{"do":"policy.add","document":{"Policy":{"PolicyId":"records","Version":"1"`+rule+`}`,
		`{"do":"policy.add","document":{"PolicySet":{"PolicySetId":"top","Version":"1","PolicyCombiningAlgId":`+
			`"urn:oasis:names:tc:xacml:3.0:policy-combining-algorithm:deny-overrides","Children":[{"Policy":{"PolicyId":`+
			`"within","Version":"1"`+rule+`]}}}`,
	)
	for _, id := range []string{"records", "top", "within"} {
		for _, rule := range []string{"", "&rule=nothing"} {
			if status, body := f.get("/by_rule?policy=" + id + rule); status != http.StatusOK || body != `{"by_rule":[]}` {
				t.Errorf("%s%s is answered %d %s", id, rule, status, body)
			}
		}
	}
	for id, near := range map[string]string{
		"recrods": `; near are \"records\"`, "witin": `; near are \"within\"`, "x": `id \"x\"`,
	} {
		status, body := f.get("/by_rule?policy=" + id)
		if status != http.StatusNotFound || !strings.Contains(body, near+`"`) {
			t.Errorf("%s is answered %d %s", id, status, body)
		}
	}
}
