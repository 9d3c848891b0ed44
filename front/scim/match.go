package scim

import (
	"encoding/json"
	"strconv"
	"strings"
	"time"
)

// source has values of attributes: a resource, or a value that has parts.
type source interface {
	// of is the value of an attribute of a schema, or of the resource's own where that is nil; nil where there is none.
	of(schema *Schema, attribute *Attribute) any
}

// parts are those of a value.
type parts map[string]any

func (p parts) of(_ *Schema, attribute *Attribute) any { return p[attribute.Name] }

func (all and) matches(of source) bool {
	for _, one := range all {
		if !one.matches(of) {
			return false
		}
	}
	return true
}

func (all or) matches(of source) bool {
	for _, one := range all {
		if one.matches(of) {
			return true
		}
	}
	return false
}

func (n not) matches(of source) bool { return !n.Filter.matches(of) }

func (v inValues) matches(of source) bool {
	for _, one := range listed(of.of(v.path.Schema, v.path.Attr)) {
		if some, is := one.(map[string]any); is && v.of.matches(parts(some)) {
			return true
		}
	}
	return false
}

// matches says whether one of the values is so; by `ne`, whether none is equal.
func (c compared) matches(of source) bool {
	is, some := c.any(of.of(c.path.Schema, c.path.Attr), c.path.Sub)
	switch {
	case c.op == "pr":
		return some
	case c.value == nil:
		return some == (c.op == "ne")
	}
	return is != (c.op == "ne")
}

// any says whether a value compares so, or one of several, and whether there is one; of a part, where one is named.
func (c compared) any(value any, part *Attribute) (is, some bool) {
	switch values := value.(type) {
	case nil:
		return false, false
	case []any:
		for _, one := range values {
			met, there := c.any(one, part)
			is, some = is || met, some || there
		}
		return is, some
	case map[string]any:
		if part != nil {
			return c.any(values[part.Name], nil)
		}
		if leaf := c.path.leaf(); leaf != nil {
			return c.any(values[leaf.Name], nil)
		}
		return false, len(values) > 0
	}
	return c.value != nil && c.is(value), present(value)
}

// leaves are what is compared of a value of the attribute.
func (p Path) leaves(value any) []any {
	if p.Sub != nil {
		some, is := value.(map[string]any)
		if !is {
			return nil
		}
		value = some[p.Sub.Name]
	}
	all, leaf := listed(value), p.leaf()
	for i, one := range all {
		if some, is := one.(map[string]any); is && leaf != nil {
			all[i] = some[leaf.Name]
		}
	}
	return all
}

// listed is a value as a list.
func listed(value any) []any {
	switch some := value.(type) {
	case nil:
		return nil
	case []any:
		return append([]any(nil), some...)
	}
	return []any{value}
}

// present says whether there is a value.
func present(value any) bool {
	switch some := value.(type) {
	case nil:
		return false
	case string:
		return some != ""
	case map[string]any:
		return len(some) > 0
	}
	return true
}

// is says whether a value compares so; `ne` as `eq`.
func (c compared) is(value any) bool {
	switch some := value.(type) {
	case bool:
		return some == c.value
	case json.Number:
		one, is := asNumber(some)
		other, was := asNumber(c.value)
		return is && was && c.ordered(sign(one, other))
	case string:
		return c.text(some)
	}
	return false
}

func sign(one, other float64) int {
	switch {
	case one < other:
		return -1
	case one > other:
		return 1
	}
	return 0
}

// orderOf is the order of two moments.
func orderOf(one, other time.Time) int {
	switch {
	case one.Before(other):
		return -1
	case one.After(other):
		return 1
	}
	return 0
}

// text compares texts, and moments as such.
func (c compared) text(some string) bool {
	if leaf := c.path.leaf(); leaf.Type == TypeDateTime && c.op != "co" && c.op != "sw" && c.op != "ew" {
		given, _ := c.value.(string)
		one, err := time.Parse(time.RFC3339, some)
		other, bad := time.Parse(time.RFC3339, given)
		return err == nil && bad == nil && c.ordered(orderOf(one, other))
	}
	with, _ := c.value.(string)
	if !c.exact && (c.op == "eq" || c.op == "ne") {
		return strings.EqualFold(some, with)
	}
	if !c.exact {
		some, with = strings.ToLower(some), c.low
	}
	switch c.op {
	case "co":
		return strings.Contains(some, with)
	case "sw":
		return strings.HasPrefix(some, with)
	case "ew":
		return strings.HasSuffix(some, with)
	}
	return c.ordered(strings.Compare(some, with))
}

// ordered says whether an order is that of the operator.
func (c compared) ordered(order int) bool {
	switch c.op {
	case "gt":
		return order > 0
	case "ge":
		return order >= 0
	case "lt":
		return order < 0
	case "le":
		return order <= 0
	}
	return order == 0
}

// asTruth reads true and false, also as texts in whatever case.
func asTruth(value any) (truth, is bool) {
	switch some := value.(type) {
	case bool:
		return some, true
	case string:
		switch strings.ToLower(some) {
		case "true":
			return true, true
		case "false":
			return false, true
		}
	}
	return false, false
}

// asNumber reads a number.
func asNumber(value any) (float64, bool) {
	some, is := value.(json.Number)
	if !is {
		return 0, false
	}
	number, err := strconv.ParseFloat(some.String(), 64)
	return number, err == nil
}
