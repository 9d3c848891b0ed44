package authzen

import (
	"encoding/json"
	"fmt"

	"review-front/places"
)

// Semantics says which of several evaluations are told.
type Semantics string

// The semantics of several evaluations: all are told, or all up to the first that is false, or true.
const (
	ExecuteAll         Semantics = "execute_all"
	DenyOnFirstDeny    Semantics = "deny_on_first_deny"
	PermitOnFirstGrant Semantics = "permit_on_first_permit"
)

// Ends says whether nothing is told behind a decision.
func (s Semantics) Ends(decision bool) bool {
	return s == DenyOnFirstDeny && !decision || s == PermitOnFirstGrant && decision
}

// Asked is one of several evaluations: a question, or why it is none.
type Asked struct {
	Question
	Wrong error
}

// Evaluations reads several evaluations, whose parts are those of the whole where they have none of their own. Where
// there are none it is one evaluation, and nil.
func (m *Mapping) Evaluations(n places.Node, most int) ([]Asked, Semantics, error) {
	whole, ok := n.Value.(map[string]any)
	if !ok {
		return nil, "", n.Fault("it isn't an object")
	}
	all, there := n.Child("evaluations")
	if !there {
		return nil, "", nil
	}
	list, ok := all.Value.([]any)
	switch {
	case !ok:
		return nil, "", all.Fault("it isn't a list")
	case len(list) > most:
		return nil, "", &TooMany{fmt.Sprintf("there are more than %d evaluations", most)}
	case len(list) == 0:
		return nil, "", nil
	}
	semantics, err := semanticsOf(n)
	if err != nil {
		return nil, "", err
	}
	var asked []Asked
	for at, value := range list {
		place := fmt.Sprintf("%s/%d", all.Place, at)
		own, ok := value.(map[string]any)
		if !ok {
			asked = append(asked, Asked{Wrong: &places.Fault{Place: place, What: "it isn't an object"}})
			continue
		}
		merged := map[string]any{}
		for _, key := range []string{"subject", "action", "resource", "context"} {
			if value, there := own[key]; there {
				merged[key] = value
			} else if value, there := whole[key]; there {
				merged[key] = value
			}
		}
		question, err := m.Evaluation(places.Node{Value: merged, Place: place})
		asked = append(asked, Asked{question, err})
	}
	return asked, semantics, nil
}

// TooMany says that more is asked than may be asked together.
type TooMany struct{ What string }

func (t *TooMany) Error() string { return t.What }

// semanticsOf reads which of several evaluations are to be told.
func semanticsOf(n places.Node) (Semantics, error) {
	options, there := n.Child("options")
	if !there {
		return ExecuteAll, nil
	}
	if _, ok := options.Value.(map[string]any); !ok {
		return "", options.Fault("it isn't an object")
	}
	said, there, err := options.Text("evaluations_semantic")
	if err != nil || !there {
		return ExecuteAll, err
	}
	switch semantics := Semantics(said); semantics {
	case ExecuteAll, DenyOnFirstDeny, PermitOnFirstGrant:
		return semantics, nil
	}
	at, _ := options.Child("evaluations_semantic")
	return "", at.Fault("%q isn't known here", said)
}

// Decision is the response to an evaluation.
type Decision struct {
	Decision bool    `json:"decision"`
	Context  Context `json:"context"`
}

// Context says more of a decision than that it is true or false.
type Context struct {
	Decision    string          `json:"decision,omitempty"` // that of XACML
	Status      string          `json:"status,omitempty"`
	Obligations json.RawMessage `json:"obligations,omitempty"`
	Advice      json.RawMessage `json:"advice,omitempty"`
	Error       *Error          `json:"error,omitempty"`
}

// Error says why an evaluation among others has no decision.
type Error struct {
	Status  int    `json:"status"`
	Message string `json:"message"`
}

// DecisionOf is the decision that a response of the program tells. Only Permit is true.
func DecisionOf(response []byte) (Decision, error) {
	var read struct {
		Response []struct {
			Decision         string
			Status           struct{ StatusCode struct{ Value string } }
			Obligations      json.RawMessage
			AssociatedAdvice json.RawMessage
		}
	}
	if err := json.Unmarshal(response, &read); err != nil {
		return Decision{}, err
	}
	if len(read.Response) != 1 {
		return Decision{}, fmt.Errorf("a response of %d results", len(read.Response))
	}
	one := read.Response[0]
	return Decision{Decision: one.Decision == "Permit", Context: Context{
		Decision: one.Decision, Status: one.Status.StatusCode.Value,
		Obligations: one.Obligations, Advice: one.AssociatedAdvice,
	}}, nil
}
