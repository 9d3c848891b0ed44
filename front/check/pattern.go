package check

import (
	"fmt"
	"strings"
)

// The parts of a pattern that aren't texts.
const (
	anyPart  = "*"  // one part, which is given to nobody
	anyParts = "**" // one or more, at the end
)

// pattern is which paths somebody means.
type pattern struct {
	written string
	parts   []part
	slash   bool // it ends with a slash
	rest    bool // one or more parts follow
}

// part is a part of a pattern: a text, or a name for whatever stands there.
type part struct{ text, name string }

// parse reads a pattern, or says what is wrong with it.
func parse(written string, fold bool) (pattern, error) {
	p := pattern{written: written}
	if !strings.HasPrefix(written, "/") {
		return p, fmt.Errorf("a path begins with a slash")
	}
	words := strings.Split(written[1:], "/")
	last := len(words) - 1
	switch {
	case words[last] == anyParts:
		words, p.rest = words[:last], true
	case words[last] == "":
		words, p.slash = words[:last], last > 0
	}
	for _, word := range words {
		one := part{text: word}
		switch {
		case word == anyPart:
			one.text = ""
		case word == anyParts:
			return p, fmt.Errorf("** stands at the end alone")
		case strings.HasPrefix(word, "{") && strings.HasSuffix(word, "}"):
			one = part{name: word[1 : len(word)-1]}
			if one.name == "" || strings.ContainsAny(one.name, "{}") || p.has(one.name) {
				return p, fmt.Errorf("the part %s has no name of its own", word)
			}
		case strings.ContainsAny(word, "{}*%"):
			return p, fmt.Errorf("the part %q is neither a text, without escapes, nor a name in braces, nor *", word)
		case strange(word) != "":
			return p, fmt.Errorf("the part %q stands in no path: %s", word, strange(word))
		case fold && strings.ToLower(word) != word:
			return p, fmt.Errorf("the part %q isn't in lower case, in which paths are looked at", word)
		}
		p.parts = append(p.parts, one)
	}
	return p, nil
}

// has says whether a part of a pattern has a name.
func (p pattern) has(name string) bool {
	for _, one := range p.parts {
		if one.name == name {
			return true
		}
	}
	return p.rest && name == anyParts
}

// names are those of its parts, in their order.
func (p pattern) names() []string {
	var all []string
	for _, one := range p.parts {
		if one.name != "" {
			all = append(all, one.name)
		}
	}
	if p.rest {
		all = append(all, anyParts)
	}
	return all
}

// match is what stands at its names in a path, if it covers that.
func (p pattern) match(s seen) (map[string]string, bool) {
	if p.slash != s.slash || len(s.parts) < len(p.parts) {
		return nil, false
	}
	if more := len(s.parts) > len(p.parts); more != p.rest {
		return nil, false
	}
	found := map[string]string{}
	for i, one := range p.parts {
		if one.text != "" && one.text != s.parts[i] {
			return nil, false
		}
		if one.name != "" {
			found[one.name] = s.parts[i]
		}
	}
	if p.rest {
		found[anyParts] = strings.Join(s.parts[len(p.parts):], "/")
	}
	return found, true
}

// template is a text with names in braces, of which a name in the table is made.
type template struct {
	texts []string // before, between and behind the names
	names []string
}

// templateOf reads a template for what a pattern has.
func templateOf(written string, p pattern) (template, error) {
	var t template
	for rest := written; ; {
		before, behind, more := strings.Cut(rest, "{")
		if strings.Contains(before, "}") {
			return t, fmt.Errorf("a brace isn't opened")
		}
		t.texts = append(t.texts, before)
		if !more {
			return t, nil
		}
		if len(t.names) > 0 && before == "" {
			return t, fmt.Errorf("nothing stands between two names")
		}
		name, after, ended := strings.Cut(behind, "}")
		if !ended || !p.has(name) {
			return t, fmt.Errorf("the path has no part {%s}", name)
		}
		t.names, rest = append(t.names, name), after
	}
}

// fill puts in what stands at the names. It is false where that has what divides them, so that two paths might have one
// name.
func (t template) fill(found map[string]string) (string, bool) {
	var all strings.Builder
	all.WriteString(t.texts[0])
	for i, name := range t.names {
		divides := t.texts[i+1]
		if i < len(t.names)-1 && strings.Contains(found[name], divides) {
			return "", false
		}
		all.WriteString(found[name])
		all.WriteString(divides)
	}
	return all.String(), true
}
