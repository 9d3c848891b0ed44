package rights

import (
	"errors"
	"fmt"
	"os"
	"path/filepath"
	"testing"
	"time"

	"review-front/limits"
	"review-front/line"
	"review-front/profile"
	"review-front/program"
)

// commandOf is how a test starts the program, or ends the test.
func commandOf(t *testing.T) program.Command {
	t.Helper()
	path := os.Getenv("REVIEW_PROGRAM")
	if path == "" {
		t.Skip("REVIEW_PROGRAM names no program")
	}
	return program.Command{
		Path: path, AttributeModules: 2, PolicyModules: 2, Limits: limits.Standard, Faults: os.Stderr,
	}
}

// denying is a state that permits everything but what has a text at an attribute of a category.
func denying(category, id, text string) []byte {
	condition := `{"Apply":{"FunctionId":"urn:oasis:names:tc:xacml:1.0:function:string-is-in","Arguments":[` +
		`{"AttributeValue":{"Value":"` + text + `"}},{"AttributeDesignator":{"Category":"` + profile.CategoryOf(category) +
		`","AttributeId":"` + id + `","DataType":"string"}}]}}`
	return []byte(`{"do":"policy.add","document":{"Policy":{"PolicyId":"p","Version":"1","RuleCombiningAlgId":` +
		`"urn:oasis:names:tc:xacml:3.0:rule-combining-algorithm:deny-overrides","Rule":[{"RuleId":"no","Effect":"Deny",` +
		`"Condition":` + condition + `},{"RuleId":"else","Effect":"Permit"}]}}}` + "\n" +
		`{"do":"root.set","reference":{"PolicyIdReference":{"Id":"p"}}}` + "\n")
}

// judge is a judge by a state.
func judge(t *testing.T, state []byte) *Judge {
	t.Helper()
	path := filepath.Join(t.TempDir(), "rights")
	if err := os.WriteFile(path, state, 0o600); err != nil {
		t.Fatal(err)
	}
	j, err := Open(commandOf(t), path, time.Minute)
	if err != nil {
		t.Fatal(err)
	}
	t.Cleanup(j.Close)
	return j
}

// TestSpellings has what policies deny be sent in each way in which the program reads it.
func TestSpellings(t *testing.T) {
	for _, one := range []struct{ id, text, line string }{
		{"category", "AccessSubject", `{"do":"attr.set","category":"urn:oasis:names:tc:xacml:1.0:subject-category:access-subject"}`},
		{"category", "AccessSubject", `{"do":"attr.set","category":"Access\u0053ubject"}`},
		{"category", "AccessSubject", `{"do":"attr.set","category":"Resource","c\u0061tegory":"AccessSubject"}`},
		{"category", "Resource", `{"do":"attributes","category":"urn:oasis:names:tc:xacml:3.0:attribute-category:resource"}`},
		{"version", "1.2", `{"do":"policy.withdraw","kind":"Policy","id":"p","version":"01.002"}`},
		{"version", "1.2", `{"do":"policy.add","document":{"Policy":{"PolicyId":"p","Version":"1.02"}}}`},
		{"version", "0", `{"do":"policy.withdraw","kind":"Policy","id":"p","version":"000"}`},
		{"id", "p", `{"do":"policy.add","document":{"Policy":7,"Policy":{"PolicyId":"q","PolicyId":"p"}}}`},
		{"id", "p", `{"do":"policy.replace","document":{"Policy":{},"Polic\u0079":{"PolicyId":[],"Policy\u0049d":"\u0070"}}}`},
		{"id", "p", `{"do":"root.set","reference":{"PolicyIdReference":{"Id":"p","Version":"1"}}}`},
		{"kind", "PolicySet", `{"do":"root.set","reference":{"PolicySetIdReference":{"Id":"p"}}}`},
		{"day", "2026-01-01", `{"do":"day.set","day":"2026-01-01Z"}`},
		{"moment", "2026-01-01T00:00:00", `{"do":"moment.set","moment":"2026-01-01T00:00:00Z"}`},
		{"type", "http://www.w3.org/2001/XMLSchema#string", `{"do":"attr.set","type":"string"}`},
	} {
		j := judge(t, denying("Resource", one.id, one.text))
		command, _ := line.Do([]byte(one.line))
		if permitted, err := j.May(Subject{Name: "ann"}, command, []byte(one.line)); permitted || err != nil {
			t.Errorf("where %s is denied at %s, %s is %v, %v", one.text, one.id, one.line, permitted, err)
		}
		if permitted, err := j.May(Subject{Name: "ann"}, "counts", []byte(`{"do":"counts"}`)); !permitted || err != nil {
			t.Errorf("where %s is denied at %s, another line is %v, %v", one.text, one.id, permitted, err)
		}
		j.Close()
	}
}

// TestManyClaims asks for somebody with many claims: none is left out without a word.
func TestManyClaims(t *testing.T) {
	j := judge(t, denying("AccessSubject", "claim:groups", "suspended"))
	may := func(claims map[string][]string) (bool, error) {
		return j.May(Subject{Name: "ann", Claims: claims}, "counts", []byte(`{"do":"counts"}`))
	}
	var groups []string
	for i := 0; i < 1000; i++ {
		groups = append(groups, fmt.Sprint("g", i))
	}
	if permitted, err := may(map[string][]string{"groups": groups}); !permitted || err != nil {
		t.Errorf("who has 1,000 groups is %v, %v", permitted, err)
	}
	if permitted, err := may(map[string][]string{"groups": append(groups, "suspended")}); permitted || err != nil {
		t.Errorf("who has 1,000 groups, and is suspended, is %v, %v", permitted, err)
	}
	claims := map[string][]string{"groups": {"suspended"}}
	for i := 0; i < 300; i++ {
		claims[fmt.Sprint("a", i)] = []string{"x"}
	}
	if permitted, err := may(claims); permitted || !errors.Is(err, ErrClaims) {
		t.Errorf("who has 300 claims is %v, %v", permitted, err)
	}
}

// deciding is a state whose one rule decides about everything.
func deciding(effect string) []byte {
	return []byte(`{"do":"policy.add","document":{"Policy":{"PolicyId":"p","Version":"1","RuleCombiningAlgId":` +
		`"urn:oasis:names:tc:xacml:3.0:rule-combining-algorithm:deny-overrides","Rule":[{"RuleId":"r","Effect":"` + effect +
		`"}]}}}` + "\n" + `{"do":"root.set","reference":{"PolicyIdReference":{"Id":"p"}}}` + "\n")
}

// TestDies ends the program that decides, behind a change of the file: another decides by what was read before.
func TestDies(t *testing.T) {
	j := judge(t, deciding("Deny"))
	may := func() (bool, error) { return j.May(Subject{Name: "ann"}, "counts", []byte(`{"do":"counts"}`)) }
	if permitted, err := may(); permitted || err != nil {
		t.Fatalf("it is %v, %v", permitted, err)
	}
	if err := os.WriteFile(j.path, deciding("Permit"), 0o600); err != nil {
		t.Fatal(err)
	}
	j.now.Kill()
	if permitted, err := may(); permitted || !errors.Is(err, ErrUndecided) {
		t.Errorf("while nothing decides it is %v, %v", permitted, err)
	}
	if permitted, err := may(); permitted || err != nil {
		t.Errorf("of another program it is %v, %v", permitted, err)
	}
	if err := j.Read(); err != nil {
		t.Fatal(err)
	}
	if permitted, err := may(); !permitted || err != nil {
		t.Errorf("once it is read again it is %v, %v", permitted, err)
	}
}
