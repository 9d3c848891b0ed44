package main

import (
	"encoding/json"
	"fmt"
	"math/rand"
	"strings"
	"testing"

	"review-front/access"
)

// hiding writes requests that give an attribute in many ways.
type hiding struct{ *rand.Rand }

func (h hiding) one(of ...string) string { return of[h.Intn(len(of))] }

// text writes a text, with escapes in it.
func (h hiding) text(text string) string {
	written := ""
	for _, b := range []byte(text) {
		if h.Intn(15) == 0 {
			written += fmt.Sprintf(`\u%04x`, b)
		} else {
			written += string(rune(b))
		}
	}
	return `"` + written + `"`
}

// object writes members, some of them twice, with something else before or behind.
func (h hiding) object(pairs ...string) string {
	var members []string
	for i := 0; i+1 < len(pairs); i += 2 {
		members = append(members, h.text(pairs[i])+":"+pairs[i+1])
		if h.Intn(25) == 0 {
			other := h.text(pairs[i]) + ":" + h.one(`7`, `null`, `{}`, `[]`, `"ok"`, `{"Attribute":[]}`, pairs[(i+3)%len(pairs)])
			members = append(members, other)
		}
	}
	if h.Intn(4) == 0 {
		h.Shuffle(len(members), func(i, j int) { members[i], members[j] = members[j], members[i] })
	}
	return h.one("", " ") + "{" + strings.Join(members, h.one(",", " ,\t")) + "}"
}

// listed is a value by itself, in a list, or beside others.
func (h hiding) listed(value, other string) string {
	return h.one(value, value, "["+value+"]", "["+other+","+value+"]", "["+value+","+other+"]")
}

func (h hiding) attribute(id string) string {
	more := []string{"AttributeId", h.text(id), "Value", h.listed(`"x"`, `"y"`)}
	if h.Intn(3) == 0 {
		more = append(more, "DataType", h.one(`"string"`, `"http://www.w3.org/2001/XMLSchema#string"`))
	}
	return h.object(more...)
}

// line is a line that asks.
func (h hiding) line() string {
	attributes := h.listed(h.attribute(h.one("secret", "secret", "ok", "Secret")), h.attribute("ok"))
	name := h.one("AccessSubject", "Resource", "Environment", "Codebase", "Category", "Category", "Category")
	category := h.object("Attribute", attributes)
	if name == "Category" {
		category = h.object("CategoryId", h.text(h.one("AccessSubject", "Resource", "Environment", "Codebase", "urn:own",
			subjectCategory, environment)), "Attribute", attributes)
	}
	request := h.object("Request", h.object(name, h.listed(category, h.object("Attribute", h.attribute("ok")))))
	return h.object("do", h.one(`"ask"`, `"explain"`), "request", request)
}

// TestGivesAsTheProgram sends requests that give an attribute which may not be given, in many spellings: of none that is
// let through has the program that attribute.
func TestGivesAsTheProgram(t *testing.T) {
	w := newTwin(t)
	var rules []string
	for i, category := range []string{subjectCategory, environment, "urn:own", "urn:oasis:names:tc:xacml:3.0:attribute-category:resource",
		"urn:oasis:names:tc:xacml:1.0:subject-category:codebase"} {
		rules = append(rules, fmt.Sprintf(`{"RuleId":"%d","Effect":"Permit","Condition":%s}`, i, isGiven(category, "secret", "string", `"x"`)))
	}
	all := oneRule(isGiven(subjectCategory, "secret", "string", `"x"`))
	all[0] = all[0][:strings.Index(all[0], `{"RuleId"`)] + strings.Join(rules, ",") + `]}}}`
	for _, l := range all {
		if reply := w.ask(l); !strings.HasPrefix(reply, `{"changes"`) {
			t.Fatalf("%s is answered %s", l, reply)
		}
	}
	var gives access.Gives
	if err := json.Unmarshal([]byte(`{"AccessSubject":["ok"],"Resource":["ok"],"Environment":["ok"],"Codebase":["ok"],`+
		`"urn:own":["ok"],"Action":["*"]}`), &gives); err != nil {
		t.Fatal(err)
	}
	h, permitted, through := hiding{rand.New(rand.NewSource(3))}, 0, 0
	for i := 0; i < number("FRONT_REQUESTS", 10_000); i++ {
		l := h.line()
		reply, err := w.ask(l), gives.CheckLine([]byte(l))
		isPermit := strings.Contains(reply, `"Decision":"Permit"`) || strings.Contains(reply, `"decision":"Permit"`)
		if isPermit && err == nil {
			t.Fatalf("%s is let through, and answered %s", l, reply)
		}
		if isPermit {
			permitted++
		}
		if err == nil && !strings.HasPrefix(reply, `{"refused"`) {
			through++
		}
	}
	if permitted < 100 || through < 100 {
		t.Errorf("%d requests give the attribute, and %d are let through", permitted, through)
	}
	t.Logf("%d requests give the attribute, and %d are let through", permitted, through)
}
