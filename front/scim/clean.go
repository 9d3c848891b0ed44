package scim

import (
	"encoding/base64"
	"encoding/json"
	"errors"
	"strings"
	"time"
	"unicode/utf8"
)

// errBehind says that more stands behind an object.
var errBehind = errors.New("something stands behind the object")

const (
	// mostText is how long a text is at most, and mostValues how many values an attribute has.
	mostText   = 65536
	mostValues = 1000
)

// Draft is a resource that is being made: what clients set of it, and of a group who is to be in it.
type Draft struct {
	kind    *Kind
	Doc     map[string]any
	Members *Members // nil where the resource has none
}

// Whole makes a draft of a body that has all of a resource. What only the server sets is passed over, and what no
// schema has.
func (d *Draft) Whole(body map[string]any) error {
	d.Doc = map[string]any{}
	if err := d.kind.knows(body); err != nil {
		return err
	}
	if d.Members != nil {
		d.Members.Clear()
	}
	for name, value := range body {
		p, err := d.kind.path(name)
		if isPassword(name) {
			return errPassword
		}
		if err != nil || p.Sub != nil || p.Attr != nil && p.Schema != nil {
			continue
		}
		if err := d.set(p, value); err != nil {
			return err
		}
	}
	return d.finish()
}

// ReadBody reads the body of a request, an object.
func ReadBody(body []byte) (map[string]any, error) {
	read, err := decode(body)
	if err != nil || read == nil || !utf8.Valid(body) {
		return nil, wrong(InvalidSyntax, "the body isn't one JSON object in UTF-8")
	}
	return read, nil
}

// errPassword says that none is kept here.
var errPassword = wrong(InvalidValue, "passwords aren't kept here: leave them out")

func isPassword(name string) bool {
	name = strings.ToLower(name)
	return name == "password" || strings.HasSuffix(name, ":password")
}

// knows sees that a body has no schema that isn't known.
func (k *Kind) knows(body map[string]any) error {
	for name, value := range body {
		if !strings.EqualFold(name, "schemas") {
			continue
		}
		for _, one := range listed(value) {
			id, is := one.(string)
			if !is {
				return wrong(InvalidSyntax, "schemas are texts")
			}
			if !strings.EqualFold(id, k.Core.ID) && k.extension(id) == nil {
				return wrong(InvalidValue, "the schema %.200q isn't known of a %s here", id, k.Name)
			}
		}
	}
	return nil
}

// set puts a value in the place of what is there: of an attribute, or of all that an extension has.
func (d *Draft) set(p Path, value any) error {
	switch {
	case p.Attr == nil:
		return d.setSchema(p.Schema, value)
	case p.Attr.isReadOnly():
		return nil
	case p.Attr.Name == "members" && d.Members != nil:
		ids, err := memberIDs(value)
		if err != nil {
			return err
		}
		d.Members.Clear()
		return d.Members.Add(ids)
	}
	clean, err := p.Attr.clean(value)
	if err != nil {
		return err
	}
	d.put(p, clean)
	return nil
}

// setSchema sets what a body has of an extension.
func (d *Draft) setSchema(schema *Schema, value any) error {
	if value == nil {
		delete(d.Doc, schema.ID)
		return nil
	}
	some, is := value.(map[string]any)
	if !is {
		return wrong(InvalidValue, "%s is an object", schema.ID)
	}
	for name, one := range some {
		if p, ok := within(schema, schema.Attributes, name); ok && p.Sub == nil {
			if err := d.set(p, one); err != nil {
				return err
			}
		}
	}
	return nil
}

// place is where the attributes of a schema stand.
func (d *Draft) place(schema *Schema) map[string]any {
	if schema == nil {
		return d.Doc
	}
	some, _ := d.Doc[schema.ID].(map[string]any)
	if some == nil {
		some = map[string]any{}
		d.Doc[schema.ID] = some
	}
	return some
}

// put puts a clean value there, or takes away what is there.
func (d *Draft) put(p Path, clean any) {
	to := d.place(p.Schema)
	if some, is := clean.([]any); clean == nil || is && len(some) == 0 {
		delete(to, p.Attr.Name)
	} else {
		to[p.Attr.Name] = clean
	}
	if p.Schema != nil && len(to) == 0 {
		delete(d.Doc, p.Schema.ID)
	}
}

// finish sees that what is required is there.
func (d *Draft) finish() error {
	for _, one := range d.kind.Core.Attributes {
		if one.Required && !present(d.Doc[one.Name]) {
			return wrong(InvalidValue, "%s is missing", one.Name)
		}
	}
	for _, schema := range d.kind.Extensions {
		some, there := d.Doc[schema.ID].(map[string]any)
		for _, one := range schema.Attributes {
			if there && one.Required && !present(some[one.Name]) {
				return wrong(InvalidValue, "%s:%s is missing", schema.ID, one.Name)
			}
		}
	}
	return nil
}

// clean is a value as it is kept, or nil where it is none.
func (a *Attribute) clean(value any) (any, error) {
	if value == nil {
		return nil, nil
	}
	if !a.MultiValued {
		if some, is := value.([]any); is {
			switch len(some) { // some clients send one value as a list
			case 0:
				return nil, nil
			case 1:
				return a.cleanOne(some[0])
			}
			return nil, wrong(InvalidValue, "%s has one value", a.Name)
		}
		return a.cleanOne(value)
	}
	var all []any
	given := listed(value)
	if len(given) > mostValues {
		return nil, a.tooMany()
	}
	for _, one := range given {
		clean, err := a.cleanOne(one)
		if err != nil {
			return nil, err
		}
		if clean != nil && !holds(all, clean) {
			all = append(all, clean)
		}
	}
	return all, a.onePrimary(all)
}

// tooMany says that there are more values than may be.
func (a *Attribute) tooMany() error {
	return wrong(InvalidValue, "%s has at most %d values", a.Name, mostValues)
}

// onePrimary sees that no more than one value is the preferred one, and that there aren't too many.
func (a *Attribute) onePrimary(all []any) error {
	if len(all) > mostValues {
		return a.tooMany()
	}
	count := 0
	for _, one := range all {
		if some, is := one.(map[string]any); is && some["primary"] == true {
			count++
		}
	}
	if count > 1 {
		return wrong(InvalidValue, "%s has more than one primary value", a.Name)
	}
	return nil
}

// cleanOne is one value as it is kept.
func (a *Attribute) cleanOne(value any) (any, error) {
	switch a.Type {
	case TypeComplex:
		return a.cleanParts(value)
	case TypeBoolean:
		if truth, is := asTruth(value); is {
			return truth, nil
		}
	case TypeInteger, TypeDecimal:
		if number, is := value.(json.Number); is && (a.Type == TypeDecimal || !strings.ContainsAny(number.String(), ".eE")) {
			return number, nil
		}
	default:
		text, is := value.(string)
		if is && utf8.ValidString(text) && len(text) <= mostText && a.reads(text) {
			return text, nil
		}
	}
	if value == nil {
		return nil, nil
	}
	return nil, wrong(InvalidValue, "%s is of the type %s", a.Name, a.Type)
}

// reads says whether a text is one of the attribute's type.
func (a *Attribute) reads(text string) bool {
	switch a.Type {
	case TypeDateTime:
		_, err := time.Parse(time.RFC3339, text)
		return err == nil
	case TypeBinary:
		_, err := base64.StdEncoding.DecodeString(text)
		return err == nil
	}
	return true
}

// cleanParts is a value of several parts as it is kept. A text stands for its part `value`.
func (a *Attribute) cleanParts(value any) (any, error) {
	if text, is := value.(string); is && find(a.Sub, "value") != nil {
		if text == "" {
			return nil, nil
		}
		value = map[string]any{"value": text}
	}
	some, is := value.(map[string]any)
	if !is {
		return nil, wrong(InvalidValue, "%s has parts", a.Name)
	}
	clean := map[string]any{}
	for name, one := range some {
		sub := find(a.Sub, name)
		if sub == nil || sub.isReadOnly() {
			continue
		}
		part, err := sub.clean(one)
		if err != nil {
			return nil, err
		}
		if part != nil {
			clean[sub.Name] = part
		}
	}
	if len(clean) == 0 {
		return nil, nil
	}
	return clean, nil
}

// holds says whether a value is among some.
func holds(all []any, value any) bool {
	for _, one := range all {
		if equal(one, value) {
			return true
		}
	}
	return false
}
