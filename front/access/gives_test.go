package access

import (
	"encoding/json"
	"errors"
	"strings"
	"testing"
)

// TestGives looks at requests of somebody who may give a person's id, and everything of an action.
func TestGives(t *testing.T) {
	var gives Gives
	if err := json.Unmarshal([]byte(`{"AccessSubject":["id"],"urn:oasis:names:tc:xacml:3.0:attribute-category:action":["*"]}`), &gives); err != nil {
		t.Fatal(err)
	}
	id, more := `{"AttributeId":"id","Value":"ann"}`, `{"AttributeId":"clearance","Value":"top"}`
	subject := `"urn:oasis:names:tc:xacml:1.0:subject-category:access-subject"`
	for request, want := range map[string]string{
		`{}`: "",
		`{"AccessSubject":{"Attribute":` + id + `}}`:                                           "",
		`{"AccessSubject":[{"Attribute":[` + id + `]}],"Action":{"Attribute":[` + more + `]}}`: "",
		`{"Category":{"CategoryId":` + subject + `,"Attribute":[` + id + `,` + id + `]}}`:      "",
		`{"Category":[{"CategoryId":"Action","Attribute":` + more + `}]}`:                      "",
		`{"AccessSubject":{}}`: "",
		`{"AccessSubject":{"Attribute":[` + id + `,` + more + `]}}`:                      "clearance",
		`{"Resource":{"Attribute":` + id + `}}`:                                          "id",
		`{"Category":{"CategoryId":` + subject + `,"Attribute":` + more + `}}`:           "clearance",
		`{"Category":{"CategoryId":"AccessSubject","Attribute":` + more + `}}`:           "clearance",
		`{"Category":{"CategoryId":"other","Attribute":` + id + `}}`:                     "id",
		`{"AccessSubject":{"Attribute":{"\u0041ttributeId":"clear\u0061nce"}}}`:          "clearance",
		`{"AccessSubject":{"Attribute":` + id + `,"Attribute":` + more + `}}`:            "twice",
		`{"AccessSubject":{"Attribute":` + more + `,"\u0041ttribute":` + id + `}}`:       "twice",
		`{"AccessSubject":{},"AccessSubject":{"Attribute":` + more + `}}`:                "twice",
		`{"AccessSubject":{"Attribute":{"AttributeId":"clearance","AttributeId":"id"}}}`: "twice",
		`{"AccessSubject":{"Attribute":7}}`:                                              "can't be read",
		`{"Category":{"Attribute":` + id + `}}`:                                          "can't be read",
		`[]`:                                                                             "can't be read",
	} {
		for _, l := range []string{`{"do":"ask","request":{"Request":` + request + `}}`, `{"request":{"Request":` + request + `},"do":"explain"}`} {
			err := gives.CheckLine([]byte(l))
			if (err == nil) != (want == "") || err != nil && !strings.Contains(err.Error(), want) {
				t.Errorf("%s: %v, and not %q", l, err, want)
			}
			var not *NotGiven
			if errors.As(err, &not) && not.Attribute != want {
				t.Errorf("%s: %q isn't given", l, not.Attribute)
			}
		}
	}
	if err := gives.CheckLine([]byte(`{"do":"counts"}`)); err != nil {
		t.Error(err)
	}
	if err := (*Gives)(nil).CheckLine([]byte(`nonsense`)); err != nil {
		t.Error(err)
	}
}
