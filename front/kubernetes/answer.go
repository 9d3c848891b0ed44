package kubernetes

import (
	"encoding/json"
	"fmt"
	"strings"
)

// Answer is what a review is answered.
type Answer struct {
	Version string `json:"apiVersion"`
	Kind    string `json:"kind"`
	Status  Status `json:"status"`
}

// Status says whether what is asked is allowed, or denied whatever other authorizers say. Where it is neither they are
// asked.
type Status struct {
	Allowed bool   `json:"allowed"`
	Denied  bool   `json:"denied,omitempty"`
	Reason  string `json:"reason,omitempty"`
	Error   string `json:"evaluationError,omitempty"`
}

// NoOpinion is the answer that says nothing of what is asked, and why.
func NoOpinion(why string) Answer { return answer(Status{Reason: why}) }

// answer is one with a status.
func answer(status Status) Answer { return Answer{Version, Kind, status} }

// AnswerOf is the answer that a response of the program makes. No API server fulfils an obligation, so that a Permit
// with one denies (section 7.18).
func AnswerOf(response []byte) (Answer, error) {
	var read struct {
		Response []struct {
			Decision string
			Status   struct {
				StatusCode    struct{ Value string }
				StatusMessage string
			}
			Obligations []struct{ ID string }
		}
	}
	if err := json.Unmarshal(response, &read); err != nil {
		return Answer{}, err
	}
	if len(read.Response) != 1 {
		return Answer{}, fmt.Errorf("a response of %d results", len(read.Response))
	}
	one := read.Response[0]
	var obligations []string
	for _, obligation := range one.Obligations {
		obligations = append(obligations, obligation.ID)
	}
	switch {
	case one.Decision == "Permit" && len(obligations) > 0:
		why := "Permit, with obligations that nobody fulfils here: " + strings.Join(obligations, ", ")
		return answer(Status{Denied: true, Reason: why}), nil
	case one.Decision == "Permit":
		return answer(Status{Allowed: true, Reason: "Permit"}), nil
	case one.Decision == "Deny":
		return answer(Status{Denied: true, Reason: "Deny"}), nil
	case one.Decision == "NotApplicable":
		return NoOpinion("NotApplicable: no policy says anything of it"), nil
	}
	why := strings.TrimSpace(one.Status.StatusCode.Value + " " + one.Status.StatusMessage)
	return answer(Status{Reason: one.Decision, Error: why}), nil
}
