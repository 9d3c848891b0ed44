package scim

import (
	"encoding/json"
	"sort"
	"strings"
)

// byBirth puts groups into the order of their making.
func byBirth(all []Membership) {
	sort.Slice(all, func(i, j int) bool { return all[i].Born < all[j].Born })
}

// Query is what is asked of a list (RFC 7644, 3.4.2).
type Query struct {
	Kinds      []*Kind
	Filter     string
	SortBy     string
	Descending bool
	Start      int // from 1 on
	Count      int
}

// Page is a part of what a query means.
type Page struct {
	Total int
	Start int
	Views []View
}

// Ask lists what a query means.
func (t *Table) Ask(kinds *Kinds, q Query, base string) (*Page, error) {
	var all []*Resource
	for _, kind := range q.Kinds {
		some, err := t.those(kinds, kind, q)
		if err != nil {
			return nil, err
		}
		if all = append(all, some...); len(q.Kinds) == 1 {
			all = some
		}
	}
	page := &Page{Total: len(all), Start: q.Start}
	if q.SortBy != "" && q.Count > 0 {
		if err := t.sorted(kinds, all, q); err != nil {
			return nil, err
		}
	}
	if from := q.Start - 1; from < len(all) && q.Count > 0 {
		if all = all[from:]; len(all) > q.Count {
			all = all[:q.Count]
		}
		for _, one := range all {
			page.Views = append(page.Views, t.View(kinds, one, base))
		}
	}
	return page, nil
}

// those are the resources of a kind that a filter means. Of a filter on a name, or an id, alone these aren't looked
// through.
func (t *Table) those(kinds *Kinds, kind *Kind, q Query) ([]*Resource, error) {
	if q.Filter == "" {
		return t.List(kind.Name), nil
	}
	f, err := ParseFilter(kind, q.Filter)
	if err != nil && len(q.Kinds) > 1 && hasPath(kinds, q.Filter) {
		return nil, nil // it is of the other kind
	}
	if err != nil {
		return nil, err
	}
	var some []*Resource
	v := &View{kind: kind, table: t}
	for _, one := range t.near(kind, f) {
		if v.Resource = one; f.matches(v) {
			some = append(some, one)
		}
	}
	return some, nil
}

// hasPath says whether a filter is one of some kind.
func hasPath(kinds *Kinds, filter string) bool {
	for _, one := range kinds.All() {
		if _, err := ParseFilter(one, filter); err == nil {
			return true
		}
	}
	return false
}

// near are the resources of a kind among which all are that a filter means.
func (t *Table) near(kind *Kind, f Filter) []*Resource {
	some := []Filter{f}
	if all, is := f.(and); is {
		some = all
	}
	for _, one := range some {
		c, is := one.(compared)
		text, isText := c.value.(string)
		if !is || !isText || c.op != "eq" || c.path.Schema != nil || c.path.Sub != nil {
			continue
		}
		var found *Resource
		switch {
		case c.path.Attr.Name == "id":
			found = t.Find(kind.Name, text)
		case kind.Name == "User" && c.path.Attr.Name == "userName":
			found = t.Named(c.low)
		default:
			continue
		}
		if found == nil {
			return nil
		}
		return []*Resource{found}
	}
	return t.List(kind.Name)
}

// sorted puts resources into the order of an attribute. Those without it come last, or first where the order goes down.
func (t *Table) sorted(kinds *Kinds, all []*Resource, q Query) error {
	paths := map[string]Path{}
	for _, kind := range q.Kinds {
		p, err := kind.path(q.SortBy)
		if err != nil && len(q.Kinds) > 1 {
			continue
		}
		if err != nil || p.Attr == nil || p.leaf() == nil {
			return wrong(InvalidPath, "there is no order by %.200q", q.SortBy)
		}
		paths[kind.Name] = p
	}
	keys := make([]sortKey, len(all))
	for i, one := range all {
		keys[i].of = one
		keys[i].at = i
		if p, ok := paths[one.Kind]; ok {
			keys[i].take(p, View{Resource: one, kind: kinds.Of(one.Kind), table: t})
		}
	}
	sort.Slice(keys, func(i, j int) bool {
		order := keys[i].order(&keys[j])
		if q.Descending {
			order = -order
		}
		return order < 0 || order == 0 && keys[i].at < keys[j].at
	})
	for i := range keys {
		all[i] = keys[i].of
	}
	return nil
}

// sortKey is by what a resource is sorted.
type sortKey struct {
	of     *Resource
	at     int
	has    bool
	text   string
	number float64
}

// take takes the value of an attribute: of several the preferred one, or the first.
func (s *sortKey) take(p Path, v View) {
	value := v.of(p.Schema, p.Attr)
	if all, many := value.([]any); many {
		value = preferred(all)
	}
	part := p.Sub
	for some, is := value.(map[string]any); is; some, is = value.(map[string]any) {
		if part == nil {
			part = p.leaf()
		}
		value, part = some[part.Name], nil
	}
	switch some := value.(type) {
	case string:
		s.has, s.text = true, some
		if !p.leaf().CaseExact {
			s.text = strings.ToLower(some)
		}
	case bool:
		if s.has = true; some {
			s.number = 1
		}
	case json.Number:
		s.number, s.has = asNumber(some)
	}
}

// preferred is the preferred one of some values, or the first.
func preferred(all []any) any {
	for _, one := range all {
		if some, is := one.(map[string]any); is && some["primary"] == true {
			return one
		}
	}
	if len(all) == 0 {
		return nil
	}
	return all[0]
}

// order is the order of two.
func (s *sortKey) order(other *sortKey) int {
	switch {
	case s.has && !other.has:
		return -1
	case !s.has && other.has:
		return 1
	case s.number != other.number:
		return sign(s.number, other.number)
	}
	return strings.Compare(s.text, other.text)
}
