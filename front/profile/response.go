package profile

import (
	"bytes"
	"encoding/json"
	"encoding/xml"
	"errors"
	"fmt"
)

// response is one of the program (section 5.47), which is read from JSON and written as XML.
type response struct {
	XMLName xml.Name `json:"-" xml:"urn:oasis:names:tc:xacml:3.0:core:schema:wd-17 Response"`
	Results []result `json:"Response" xml:"Result"`
}

type result struct {
	Decision string `xml:"Decision"`
	Status   struct {
		StatusCode struct {
			Value string `xml:"Value,attr"`
		}
	}
	Obligations      *obligations
	AssociatedAdvice *allAdvice
	Category         []included `xml:"Attributes"`
}

// obligations are a list in JSON, and elements within one in XML.
type obligations struct{ Obligation []obligation }

// UnmarshalJSON reads the list.
func (o *obligations) UnmarshalJSON(from []byte) error { return json.Unmarshal(from, &o.Obligation) }

// allAdvice is a list in JSON, and elements within one in XML.
type allAdvice struct{ Advice []advice }

// UnmarshalJSON reads the list.
func (a *allAdvice) UnmarshalJSON(from []byte) error { return json.Unmarshal(from, &a.Advice) }

type obligation struct {
	ID                  string       `json:"Id" xml:"ObligationId,attr"`
	AttributeAssignment []assignment `xml:"AttributeAssignment"`
}

type advice struct {
	ID                  string       `json:"Id" xml:"AdviceId,attr"`
	AttributeAssignment []assignment `xml:"AttributeAssignment"`
}

type assignment struct {
	AttributeID string  `json:"AttributeId" xml:"AttributeId,attr"`
	Category    *string `xml:"Category,attr,omitempty"`
	DataType    string  `xml:"DataType,attr"`
	Issuer      *string `xml:"Issuer,attr,omitempty"`
	Value       text    `xml:",chardata"`
}

type included struct {
	CategoryID string         `json:"CategoryId" xml:"Category,attr"`
	Attribute  []includedOnce `xml:"Attribute"`
}

type includedOnce struct {
	AttributeID     string  `json:"AttributeId" xml:"AttributeId,attr"`
	IncludeInResult bool    `json:"-" xml:"IncludeInResult,attr"`
	Issuer          *string `xml:"Issuer,attr,omitempty"`
	DataType        string  `xml:"-"`
	Value           values  `xml:"AttributeValue"`
}

// text is a value of JSON as its text in XML.
type text string

// UnmarshalJSON reads a text, a boolean or a number.
func (t *text) UnmarshalJSON(from []byte) error {
	var quoted string
	if json.Unmarshal(from, &quoted) == nil {
		*t = text(quoted)
		return nil
	}
	*t = text(from)
	return nil
}

// typed is a value with its type.
type typed struct {
	DataType string `xml:"DataType,attr"`
	Text     text   `xml:",chardata"`
}

// values are one value, or a list.
type values []typed

// UnmarshalJSON reads one value, or a list.
func (v *values) UnmarshalJSON(from []byte) error {
	var list []text
	if bytes.HasPrefix(from, []byte("[")) {
		if err := json.Unmarshal(from, &list); err != nil {
			return err
		}
	} else {
		list = make([]text, 1)
		if err := json.Unmarshal(from, &list[0]); err != nil {
			return err
		}
	}
	for _, one := range list {
		*v = append(*v, typed{Text: one})
	}
	return nil
}

// replacement stands in XML for what can't.
const replacement = "\uFFFD"

// ErrUnwritten says that a response has a character which stands in no XML.
var ErrUnwritten = errors.New("a text of the response has a character that stands in no XML")

// ResponseXML is a response of the program as XML.
func ResponseXML(body []byte) ([]byte, error) {
	var read response
	if err := json.Unmarshal(body, &read); err != nil {
		return nil, fmt.Errorf("a response of the program: %w", err)
	}
	for _, result := range read.Results {
		for _, category := range result.Category {
			for at := range category.Attribute {
				one := &category.Attribute[at]
				one.IncludeInResult = true
				for value := range one.Value {
					one.Value[value].DataType = one.DataType
				}
			}
		}
	}
	written, err := xml.Marshal(read)
	if err != nil {
		return nil, err
	}
	if bytes.Count(written, []byte(replacement)) != bytes.Count(body, []byte(replacement)) {
		return nil, ErrUnwritten
	}
	return append([]byte(xml.Header), written...), nil
}
