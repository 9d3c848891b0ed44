package scim

import (
	"encoding/json"
	"fmt"
	"strings"
)

const (
	// mostFilter is how long a filter is, and deepestFilter how deep it nests.
	mostFilter    = 8192
	deepestFilter = 32
)

// Filter says which resources are meant (RFC 7644, 3.4.2.2).
type Filter interface{ matches(of source) bool }

// and, or and not are of other filters.
type (
	and []Filter
	or  []Filter
	not struct{ Filter }
)

// inValues is a filter of the values of an attribute, one of which has to match all of it.
type inValues struct {
	path Path
	of   Filter
}

// compared is an attribute that is compared.
type compared struct {
	path  Path
	op    string // in small letters
	value any    // a text, json.Number, a truth or nil
	low   string // the text in small letters
	exact bool
}

// ParseFilter reads a filter of a kind.
func ParseFilter(k *Kind, text string) (Filter, error) {
	return parseFilter(text, k.path)
}

// parseFilter reads a filter whose names something finds.
func parseFilter(text string, names func(string) (Path, error)) (Filter, error) {
	if len(text) > mostFilter {
		return nil, wrong(InvalidFilter, "a filter has at most %d bytes", mostFilter)
	}
	p := &parsing{text: text, names: names}
	f, err := p.either(0)
	if p.skip(); err == nil && p.at < len(p.text) {
		err = fmt.Errorf("%.40q stands behind it", p.text[p.at:])
	}
	if err != nil {
		return nil, wrong(InvalidFilter, "the filter, at byte %d: %v", p.at, err)
	}
	return f, nil
}

// parsing is a filter as far as it was read.
type parsing struct {
	text  string
	at    int
	names func(string) (Path, error)
}

func (p *parsing) skip() {
	for p.at < len(p.text) && p.text[p.at] == ' ' {
		p.at++
	}
}

// word reads what stands there up to a blank, a bracket or a parenthesis.
func (p *parsing) word() string {
	p.skip()
	from := p.at
	for p.at < len(p.text) && strings.IndexByte(" ()[]", p.text[p.at]) < 0 {
		p.at++
	}
	return p.text[from:p.at]
}

// takes reads a word, in whatever case, if it stands there.
func (p *parsing) takes(word string) bool {
	before := p.at
	if strings.EqualFold(p.word(), word) {
		return true
	}
	p.at = before
	return false
}

// sign reads a sign, if it stands there.
func (p *parsing) sign(sign byte) bool {
	p.skip()
	if p.at < len(p.text) && p.text[p.at] == sign {
		p.at++
		return true
	}
	return false
}

// either reads filters with `or` between.
func (p *parsing) either(deep int) (Filter, error) {
	var all or
	for {
		one, err := p.both(deep)
		if err != nil {
			return nil, err
		}
		if all = append(all, one); !p.takes("or") {
			break
		}
	}
	if len(all) == 1 {
		return all[0], nil
	}
	return all, nil
}

// both reads filters with `and` between.
func (p *parsing) both(deep int) (Filter, error) {
	var all and
	for {
		one, err := p.one(deep)
		if err != nil {
			return nil, err
		}
		if all = append(all, one); !p.takes("and") {
			break
		}
	}
	if len(all) == 1 {
		return all[0], nil
	}
	return all, nil
}

// one reads a filter in parentheses, one that is negated, or an attribute.
func (p *parsing) one(deep int) (Filter, error) {
	if deep >= deepestFilter {
		return nil, fmt.Errorf("it nests deeper than %d", deepestFilter)
	}
	before := p.at
	if p.takes("not") {
		if p.sign('(') {
			f, err := p.closed(deep)
			return not{f}, err
		}
		p.at = before
	}
	if p.sign('(') {
		return p.closed(deep)
	}
	return p.attribute(deep)
}

// closed reads what stands in parentheses.
func (p *parsing) closed(deep int) (Filter, error) {
	f, err := p.either(deep + 1)
	if err == nil && !p.sign(')') {
		err = fmt.Errorf("a parenthesis isn't closed")
	}
	return f, err
}

// attribute reads what is said of an attribute.
func (p *parsing) attribute(deep int) (Filter, error) {
	name := p.word()
	path, err := p.names(name)
	if err != nil {
		return nil, err
	}
	if path.Attr == nil {
		return nil, fmt.Errorf("%.200q is a schema, and no attribute", name)
	}
	if p.at < len(p.text) && p.text[p.at] == '[' {
		return p.values(path, deep)
	}
	op := strings.ToLower(p.word())
	if op == "pr" {
		return compared{path: path, op: op}, nil
	}
	value, err := p.value()
	if err != nil {
		return nil, err
	}
	return comparing(path, op, value)
}

// values reads the filter of an attribute's values.
func (p *parsing) values(path Path, deep int) (Filter, error) {
	if path.Sub != nil || path.Attr.Type != TypeComplex {
		return nil, fmt.Errorf("%s has no parts", path)
	}
	p.at++
	outer := p.names
	p.names = path.Attr.part
	f, err := p.either(deep + 1)
	p.names = outer
	if err == nil && !p.sign(']') {
		err = fmt.Errorf("a bracket isn't closed")
	}
	return inValues{path, f}, err
}

// part finds a part of an attribute.
func (a *Attribute) part(name string) (Path, error) {
	if sub := find(a.Sub, name); sub != nil {
		return Path{Attr: sub}, nil
	}
	return Path{}, fmt.Errorf("%w: %.200q of %s", errPath, name, a.Name)
}

// value reads a value as JSON has it.
func (p *parsing) value() (any, error) {
	p.skip()
	from := json.NewDecoder(strings.NewReader(p.text[p.at:]))
	from.UseNumber()
	token, err := from.Token()
	if _, is := token.(json.Delim); err != nil || is {
		return nil, fmt.Errorf("a value is a text in quotes, a number, true, false or null")
	}
	p.at += int(from.InputOffset())
	return token, nil
}

// comparing is a comparison, where the attribute can be compared so.
func comparing(path Path, op string, value any) (Filter, error) {
	if strings.Index(" eq ne co sw ew gt ge lt le ", " "+op+" ") < 0 || op == "" {
		return nil, fmt.Errorf("there is no operator %.20q", op)
	}
	leaf := path.leaf()
	if leaf == nil {
		return nil, fmt.Errorf("%s has no value that could be compared", path)
	}
	c := compared{path: path, op: op, value: value, exact: leaf.CaseExact}
	if value == nil {
		if op != "eq" && op != "ne" {
			return nil, fmt.Errorf("null is compared by eq and ne alone")
		}
		return c, nil
	}
	ordered := op == "gt" || op == "ge" || op == "lt" || op == "le"
	switch leaf.Type {
	case TypeBoolean:
		truth, is := asTruth(value)
		if !is || op != "eq" && op != "ne" {
			return nil, fmt.Errorf("%s is true or false, and compared by eq and ne", path)
		}
		c.value = truth
		return c, nil
	case TypeInteger, TypeDecimal:
		if _, is := asNumber(value); !is || !ordered && op != "eq" && op != "ne" {
			return nil, fmt.Errorf("%s is a number, and compared with one", path)
		}
		return c, nil
	case TypeBinary:
		if ordered {
			return nil, fmt.Errorf("%s has no order", path)
		}
	}
	text, is := value.(string)
	if !is {
		return nil, fmt.Errorf("%s is compared with a text", path)
	}
	c.low = strings.ToLower(text)
	return c, nil
}

// leaf is what is compared of a path, or nil.
func (p Path) leaf() *Attribute {
	if p.Sub != nil {
		return p.Sub.value()
	}
	return p.Attr.value()
}
