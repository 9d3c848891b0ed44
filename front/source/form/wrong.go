package form

import (
	"errors"
	"fmt"
	"sort"
	"strings"
	"unicode/utf8"
)

// types are those of values, by their last words.
var types = map[string]string{
	"string": xsd + "string", "boolean": xsd + "boolean", "integer": xsd + "integer", "date": xsd + "date",
	"anyURI": xsd + "anyURI", "time": xsd + "time", "dateTime": xsd + "dateTime",
	"yearMonthDuration": xsd + "yearMonthDuration",
}

const xsd = "http://www.w3.org/2001/XMLSchema#"

// TypeURI is the URI of a type, by its last word.
func TypeURI(word string) string { return types[word] }

// TypeWord is the last word of a type, by its URI.
func TypeWord(uri string) string { return strings.TrimPrefix(uri, xsd) }

// Forms are how days and moments may be written, by type, as Go's library reads them. Two are no layout: seconds since
// 1970, and what a directory writes, as 20260131090000Z.
var Forms = map[string]map[string][]string{
	"date": {
		"": {"2006-01-02", "2006-01-02Z"}, "YYYY-MM-DD": {"2006-01-02"}, "YYYYMMDD": {"20060102"},
		"DD.MM.YYYY": {"02.01.2006", "2.1.2006"}, "DD/MM/YYYY": {"02/01/2006", "2/1/2006"},
		"MM/DD/YYYY": {"01/02/2006", "1/2/2006"}, "generalized": generalized,
	},
	"dateTime": {
		"": {"2006-01-02T15:04:05", "2006-01-02T15:04:05Z"}, "YYYY-MM-DD hh:mm:ss": {"2006-01-02 15:04:05"},
		"DD.MM.YYYY hh:mm:ss": {"02.01.2006 15:04:05", "2.1.2006 15:04:05"}, "RFC 3339": {"2006-01-02T15:04:05Z07:00"},
		"generalized": generalized, "seconds": nil,
	},
	"time": {"": {"15:04:05", "15:04:05Z"}, "hh:mm": {"15:04"}},
}

var generalized = []string{"20060102150405Z0700", "20060102150405.999999Z0700"}

// wrong says what is wrong with what a file says of a list.
func (k *Kind) wrong() error {
	from := 0
	for _, there := range []bool{k.CSV != nil, k.Lines != nil, k.LDAP != nil, k.Postgres != nil} {
		if there {
			from++
		}
	}
	if from != 1 {
		return errors.New(`one of "csv", "lines", "ldap" and "postgres" says where it comes from`)
	}
	if err := k.wrongRows(); err != nil {
		return err
	}
	return k.wrongFrom()
}

// wrongRows says what is wrong with its name and its attributes.
func (k *Kind) wrongRows() error {
	switch {
	case k.Name.From == "":
		return errors.New(`"name" says which field is the name`)
	case len(k.Owned()) > mostAttributes:
		return fmt.Errorf("there are more than %d attributes", mostAttributes)
	}
	if err := wrongCase(k.Name.Case); err != nil {
		return err
	}
	seen := map[string]bool{}
	for _, name := range k.Owned() {
		switch {
		case seen[name]:
			return fmt.Errorf("%q stands twice", name)
		case name == "" || len(name) > mostBytes || !utf8.ValidString(name):
			return fmt.Errorf("an attribute's id has 1 to %d bytes, and %.40q hasn't", mostBytes, name)
		case strings.HasPrefix(name, MarkBegins) || strings.HasPrefix(name, RowsBegins):
			return fmt.Errorf("%q is kept for marks", name)
		}
		seen[name] = true
	}
	for name, attribute := range k.Attributes {
		if err := attribute.wrong(); err != nil {
			return fmt.Errorf("%q: %w", name, err)
		}
		if attribute.Type == "" {
			attribute.Type = "string"
			k.Attributes[name] = attribute
		}
	}
	return nil
}

// wrong says what is wrong with an attribute.
func (a Attribute) wrong() error {
	kind := a.Type
	if kind == "" {
		kind = "string"
	}
	switch _, known := Forms[kind][a.Form]; {
	case a.From == "":
		return errors.New(`"from" says which field it is`)
	case types[kind] == "":
		return fmt.Errorf("there is no type %q; there are %s", kind, words(types))
	case a.Form != "" && Forms[kind] == nil:
		return fmt.Errorf("a %s has no form", kind)
	case !known && a.Form != "":
		return fmt.Errorf("there is no form %q of a %s; there are %s", a.Form, kind, words(Forms[kind]))
	}
	return wrongCase(a.Case)
}

func wrongCase(given string) error {
	if given != "" && given != "lower" && given != "upper" {
		return fmt.Errorf("case is lower or upper, and not %q", given)
	}
	return nil
}

// wrongFrom says what is wrong with where it comes from.
func (k *Kind) wrongFrom() error {
	switch {
	case k.CSV != nil:
		if len(k.CSV.Separator) > 1 || k.CSV.Separator == `"` || k.CSV.Separator == "\n" || k.CSV.Separator == "\r" {
			return errors.New("the separator is one character")
		}
		return k.CSV.wrong()
	case k.Lines != nil:
		return k.Lines.wrong()
	case k.LDAP != nil:
		return k.LDAP.wrong()
	}
	return k.Postgres.wrong()
}

func (o Output) wrong() error {
	if (o.File == "") == (len(o.Command) == 0) {
		return errors.New(`there is either "file" or "command"`)
	}
	return nil
}

func (l *LDAP) wrong() error {
	switch {
	case !strings.HasPrefix(l.Address, "ldap://") && !strings.HasPrefix(l.Address, "ldaps://") &&
		!strings.HasPrefix(l.Address, "ldapi://"):
		return errors.New(`"address" begins with ldap://, ldaps:// or ldapi://`)
	case l.Base == "" || l.Filter == "":
		return errors.New(`"base" and "filter" say what is looked for`)
	case l.Groups != nil && (l.Groups.Base == "" || l.Groups.Filter == "" || l.Groups.Member == "" ||
		l.Groups.Name == "" || l.Groups.As == ""):
		return errors.New(`"groups" has "base", "filter", "member", "name" and "as"`)
	}
	return nil
}

func (p *Postgres) wrong() error {
	if p.Query == "" {
		return errors.New(`"query" is missing`)
	}
	return nil
}

// words are the words of a table, but for the empty one, in order.
func words[V any](table map[string]V) string {
	var all []string
	for word := range table {
		if word != "" {
			all = append(all, word)
		}
	}
	sort.Strings(all)
	return strings.Join(all, ", ")
}
