package profile

import (
	"bytes"
	"encoding/xml"
	"errors"
	"fmt"
	"io"
	"regexp"
	"strings"

	"review-front/places"
)

// Namespace is that of XACML 3.0.
const Namespace = "urn:oasis:names:tc:xacml:3.0:core:schema:wd-17"

const (
	xmlSpace      = "http://www.w3.org/XML/1998/namespace"
	instanceSpace = "http://www.w3.org/2001/XMLSchema-instance"
	// depth is how deep elements nest at most.
	depth = 127
)

// form is what an element of a request has by the schema of XACML 3.0.
type form struct {
	attributes map[string]bool // by name, whether they have to be there
	holds      *regexp.Regexp  // the names of its children, each with a blank behind it; nil where it has text
	words      string
}

// forms has the elements of a request (sections 5.42 to 5.46, 5.58 to 5.60).
var forms = map[string]form{
	"Request": {
		attributes: map[string]bool{"CombinedDecision": true, "ReturnPolicyIdList": true},
		holds:      regexp.MustCompile(`^(RequestDefaults )?(Attributes )+(MultiRequests )?$`),
		words:      "RequestDefaults, Attributes, MultiRequests",
	},
	"RequestDefaults": {holds: regexp.MustCompile(`^XPathVersion $`), words: "XPathVersion"},
	"XPathVersion":    {},
	"Attributes": {
		attributes: map[string]bool{"Category": true, "xml:id": false},
		holds:      regexp.MustCompile(`^(Content )?(Attribute )*$`),
		words:      "Content, Attribute",
	},
	"Attribute": {
		attributes: map[string]bool{"AttributeId": true, "IncludeInResult": true, "Issuer": false},
		holds:      regexp.MustCompile(`^(AttributeValue )+$`),
		words:      "AttributeValue",
	},
	"MultiRequests":    {holds: regexp.MustCompile(`^(RequestReference )+$`), words: "RequestReference"},
	"RequestReference": {holds: regexp.MustCompile(`^(AttributesReference )+$`), words: "AttributesReference"},
	"AttributesReference": {
		attributes: map[string]bool{"ReferenceId": true}, holds: regexp.MustCompile(`^$`), words: "nothing",
	},
}

// free are the elements in which anything stands.
var free = map[string]bool{"AttributeValue": true, "Content": true}

// element is one of XML, with its path.
type element struct {
	name       string
	attributes map[string]string
	children   []*element
	count      map[string]int // of children, by their names
	text       strings.Builder
	path       string
	isFree     bool // it stands in an element in which anything stands, or is one
}

func (e *element) fault(what string, pairs ...any) error {
	return &places.Fault{Place: e.path, What: fmt.Sprintf(what, pairs...)}
}

// tree reads the elements of XML. There is no document type, and so no entity but those of XML itself.
func tree(body []byte) (*element, error) {
	decoder := xml.NewDecoder(bytes.NewReader(body))
	top := &element{count: map[string]int{}}
	open := []*element{top}
	for {
		token, err := decoder.Token()
		if err == io.EOF {
			break
		}
		now := open[len(open)-1]
		if err != nil {
			var syntax *xml.SyntaxError
			if errors.As(err, &syntax) {
				return nil, now.fault("it isn't XML: line %d: %s", syntax.Line, syntax.Msg)
			}
			return nil, now.fault("it isn't XML: %v", err)
		}
		switch token := token.(type) {
		case xml.StartElement:
			next, err := now.begin(token)
			if err != nil {
				return nil, err
			}
			if open = append(open, next); len(open) > depth {
				return nil, next.fault("elements nest deeper than %d", depth)
			}
		case xml.EndElement:
			open = open[:len(open)-1]
		case xml.CharData:
			now.text.Write(token)
		case xml.Directive:
			return nil, now.fault("there is no document type here")
		}
	}
	if len(top.children) != 1 || strings.TrimSpace(top.text.String()) != "" {
		return nil, top.fault("it isn't one element")
	}
	return top.children[0], nil
}

// begin begins a child.
func (e *element) begin(token xml.StartElement) (*element, error) {
	name := token.Name.Local
	next := &element{name: name, attributes: map[string]string{}, count: map[string]int{}, path: e.path}
	next.isFree = e.isFree || free[name]
	e.children = append(e.children, next)
	if !e.isFree {
		e.count[name]++
		next.path += "/" + name
		if e.name != "" {
			next.path = fmt.Sprintf("%s[%d]", next.path, e.count[name])
		}
		if _, known := forms[name]; token.Name.Space != Namespace || !known && !free[name] {
			return nil, e.fault("%s of the namespace %q has no place in a request", name, token.Name.Space)
		}
	}
	for _, attribute := range token.Attr {
		key, space := attribute.Name.Local, attribute.Name.Space
		switch {
		case space == "xmlns" || space == "" && key == "xmlns":
			continue
		case space == instanceSpace && (key == "schemaLocation" || key == "noNamespaceSchemaLocation"):
			continue
		case space == xmlSpace:
			key = "xml:" + key
		case space != "":
			key = space + " " + key
		}
		if _, there := next.attributes[key]; there {
			return nil, next.fault("the attribute %s stands twice", key)
		}
		next.attributes[key] = attribute.Value
	}
	return next, nil
}

// check sees that an element is one of a request, and all below it.
func (e *element) check() error {
	if free[e.name] {
		return nil
	}
	known := forms[e.name]
	for key := range e.attributes {
		if _, has := known.attributes[key]; !has {
			return e.fault("the attribute %s isn't known here", key)
		}
	}
	for key, needed := range known.attributes {
		if _, there := e.attributes[key]; needed && !there {
			return e.fault("%s is missing", key)
		}
	}
	var names strings.Builder
	for _, child := range e.children {
		if err := child.check(); err != nil {
			return err
		}
		names.WriteString(child.name + " ")
	}
	if known.holds == nil && len(e.children) > 0 {
		return e.fault("only text stands in it")
	}
	if known.holds != nil && strings.TrimSpace(e.text.String()) != "" {
		return e.fault("no text stands in it")
	}
	if known.holds != nil && !known.holds.MatchString(names.String()) {
		return e.fault("what stands in it: %s", known.words)
	}
	return nil
}

// flag is what an attribute says that is a boolean.
func (e *element) flag(key string) (bool, error) {
	switch said := collapsed(e.attributes[key]); said {
	case "true", "1":
		return true, nil
	case "false", "0":
		return false, nil
	default:
		return false, e.fault("%s is true or false", key)
	}
}

// uri is what an attribute says that is a URI of 1 to 256 bytes, without white space around it.
func (e *element) uri(key string) (string, error) {
	said := collapsed(e.attributes[key])
	if said == "" || len(said) > places.NameBytes {
		return "", e.fault("%s has 1 to %d bytes", key, places.NameBytes)
	}
	return said, nil
}

// collapsed is a text without white space at its ends, and with one blank where more stood.
func collapsed(text string) string { return strings.Join(strings.Fields(text), " ") }
