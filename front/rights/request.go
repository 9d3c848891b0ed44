package rights

import (
	"encoding/json"
	"fmt"
	"sort"
)

// The ids by which policies find who asks, what for, and of what.
const (
	subjectID  = "urn:oasis:names:tc:xacml:1.0:subject:subject-id"
	actionID   = "urn:oasis:names:tc:xacml:1.0:action:action-id"
	resourceID = "urn:oasis:names:tc:xacml:1.0:resource:resource-id"
	claimID    = "claim:" // and behind it the name of a claim
)

// mostValues is how many values an attribute has at most, how many attributes a category, and how many bytes an id.
const mostValues = 256

// ErrClaims says that somebody has more claims than policies can be told.
var ErrClaims = fmt.Errorf("of so many claims policies can't be told: there are at most %d", mostValues-1)

// Subject is who asks.
type Subject struct {
	Name   string
	Claims map[string][]string
}

// attribute is an attribute of a request.
type attribute struct {
	ID    string `json:"AttributeId"`
	Value any    `json:"Value"`
}

// category is a category of a request.
type category struct {
	Attribute []attribute `json:"Attribute"`
}

// request is the line that asks whether somebody may send a line.
func request(who Subject, command string, l []byte) ([]byte, error) {
	var members map[string]json.RawMessage
	if err := json.Unmarshal(l, &members); err != nil {
		return nil, err
	}
	subject, err := who.told()
	if err != nil {
		return nil, err
	}
	return json.Marshal(map[string]any{"do": "ask", "request": map[string]any{"Request": map[string]category{
		"AccessSubject": {subject},
		"Action":        {[]attribute{{actionID, command}}},
		"Resource":      {resource(command, members)},
	}}})
}

// told is who asks, with his claims. One of more values than an attribute has is several attributes, whose values count
// together. A claim whose id would be too long no policy can name.
func (who Subject) told() ([]attribute, error) {
	subject := []attribute{{subjectID, who.Name}}
	var names []string
	for name := range who.Claims {
		names = append(names, name)
	}
	sort.Strings(names)
	for _, name := range names {
		values, id := who.Claims[name], claimID+name
		if len(id) > mostValues {
			continue
		}
		for len(values) > mostValues {
			subject = append(subject, attribute{id, values[:mostValues]})
			values = values[mostValues:]
		}
		subject = append(subject, attribute{id, values})
	}
	if len(subject) > mostValues {
		return nil, ErrClaims
	}
	return subject, nil
}
