package profile

import (
	"regexp"
	"strings"

	"review-front/places"
)

// idPattern is the form of an id (NCName, nearly).
var idPattern = regexp.MustCompile(`^[\p{L}_][\p{L}\p{N}\p{M}._-]*$`)

// ReadXML reads a Request element as one or more requests that the program takes, at most so many. An error is a
// *places.Fault or a *Many.
func ReadXML(body []byte, most int) ([][]byte, error) {
	root, err := tree(body)
	if err != nil {
		return nil, err
	}
	if root.name != "Request" {
		return nil, root.fault("a Request stands there")
	}
	if err := root.check(); err != nil {
		return nil, err
	}
	for _, wish := range []string{"CombinedDecision", "ReturnPolicyIdList"} {
		wished, err := root.flag(wish)
		if err == nil && wished {
			err = root.fault("%s isn't here", wish)
		}
		if err != nil {
			return nil, err
		}
	}
	categories, references, err := root.parts()
	if err != nil {
		return nil, err
	}
	requests, err := several(categories, references, most)
	if err != nil {
		return nil, err
	}
	return all(requests, most)
}

// parts reads the categories of a request, and which of them belong together.
func (e *element) parts() ([]Category, []reference, error) {
	var categories []Category
	var references []reference
	ids := map[string]bool{}
	for _, child := range e.children {
		switch child.name {
		case "Attributes":
			category, err := child.category()
			if err != nil {
				return nil, nil, err
			}
			_, isNamed := child.attributes["xml:id"]
			if isNamed && (!idPattern.MatchString(category.name) || ids[category.name]) {
				return nil, nil, child.fault("the xml:id %q is no name, or stands twice", category.name)
			}
			ids[category.name] = true
			categories = append(categories, category)
		case "MultiRequests":
			for _, one := range child.children {
				read := reference{place: one.path}
				for _, to := range one.children {
					read.names = append(read.names, collapsed(to.attributes["ReferenceId"]))
				}
				references = append(references, read)
			}
		}
	}
	if len(categories) > places.MostOf || len(references) > places.MostOf {
		return nil, nil, e.fault("there are at most %d of a kind", places.MostOf)
	}
	return categories, references, nil
}

// category reads an Attributes element.
func (e *element) category() (Category, error) {
	uri, err := e.uri("Category")
	found := Category{URI: uri, Attributes: []Attribute{}, name: collapsed(e.attributes["xml:id"]), place: e.path}
	if err != nil {
		return found, err
	}
	for _, child := range e.children {
		if child.name == "Content" {
			return found, child.fault("Content isn't here: attributes are values")
		}
		attributes, err := child.attribute()
		if err != nil {
			return found, err
		}
		found.Attributes = append(found.Attributes, attributes...)
	}
	if len(found.Attributes) > places.MostOf {
		return found, e.fault("there are at most %d attributes", places.MostOf)
	}
	return found, nil
}

// attribute reads an Attribute element, as more than one where its values are of several types: those that follow each
// other with one type are one. Values of a type that isn't here are passed over, as in JSON.
func (e *element) attribute() ([]Attribute, error) {
	var head Attribute
	var err error
	if head.ID, err = e.uri("AttributeId"); err == nil {
		head.Included, err = e.flag("IncludeInResult")
	}
	if err != nil {
		return nil, err
	}
	if issuer, there := e.attributes["Issuer"]; there {
		if issuer == "" || len(issuer) > places.NameBytes {
			return nil, e.fault("Issuer has 1 to %d bytes", places.NameBytes)
		}
		head.Issuer = &issuer
	}
	if len(e.children) > places.MostOf {
		return nil, e.fault("there are at most %d values", places.MostOf)
	}
	var parts []Attribute
	last := ""
	for _, child := range e.children {
		uri, read, err := child.value(head.Included)
		if err != nil {
			return nil, err
		}
		if here[uri] && uri == last {
			part := &parts[len(parts)-1]
			part.Values = append(part.Values, read)
		} else if here[uri] {
			part := head
			part.Type, part.Values = uri, []any{read}
			parts = append(parts, part)
		}
		last = uri
	}
	return parts, nil
}

// value reads an AttributeValue element, unless its type isn't here.
func (e *element) value(included bool) (uri string, read any, err error) {
	uri = collapsed(e.attributes["DataType"])
	if older, is := olderNames[uri]; is {
		uri = older
	}
	switch {
	case uri == "":
		return "", nil, e.fault("DataType is missing")
	case !strings.Contains(uri, ":"):
		return "", nil, e.fault("%q is no data type", uri)
	case !here[uri] && included:
		return "", nil, e.fault(elsewhere, uri)
	case !here[uri]:
		return uri, nil, nil
	case len(e.children) > 0:
		return "", nil, e.fault("only text stands in it")
	}
	text := e.text.String()
	if uri != typeString {
		text = strings.Trim(text, " \t\r\n")
	}
	read, wrong := valueOfText(uri, text)
	if wrong != "" {
		return "", nil, e.fault("%s", wrong)
	}
	return uri, read, nil
}
