package scim

import (
	"encoding/json"
	"strings"
)

// mostOperations is how many a body has at most.
const mostOperations = 1000

// operation is one of a body that changes a resource (RFC 7644, 3.5.2).
type operation struct {
	op    string // add, remove or replace
	path  string
	value any
	has   bool // whether there is a value
}

// Patch changes the draft by a body of operations, of which all are done or none.
func (d *Draft) Patch(body map[string]any) error {
	operations, err := operationsOf(body)
	if err != nil {
		return err
	}
	for _, one := range operations {
		if err := d.operate(one); err != nil {
			return err
		}
	}
	return d.finish()
}

// operationsOf reads the operations of a body. Their keys and words may have any case.
func operationsOf(body map[string]any) ([]operation, error) {
	var all []operation
	told := false
	for name, value := range body {
		switch {
		case strings.EqualFold(name, "schemas"):
			if !holdsText(listed(value), PatchMessage) {
				return nil, wrong(InvalidSyntax, "the schema of such a body is %s", PatchMessage)
			}
		case strings.EqualFold(name, "Operations"):
			told = true
			for _, some := range listed(value) {
				one, err := operationOf(some)
				if err != nil {
					return nil, err
				}
				all = append(all, one)
			}
		}
	}
	if !told || len(all) > mostOperations {
		return nil, wrong(InvalidSyntax, "there are Operations, at most %d", mostOperations)
	}
	return all, nil
}

func holdsText(all []any, text string) bool {
	for _, one := range all {
		if some, is := one.(string); is && strings.EqualFold(some, text) {
			return true
		}
	}
	return false
}

// operationOf reads one.
func operationOf(value any) (operation, error) {
	some, is := value.(map[string]any)
	if !is {
		return operation{}, wrong(InvalidSyntax, "an operation is an object")
	}
	var one operation
	for name, part := range some {
		text, isText := part.(string)
		switch {
		case strings.EqualFold(name, "op") && isText:
			one.op = strings.ToLower(text)
		case strings.EqualFold(name, "path") && (isText || part == nil):
			one.path = text
		case strings.EqualFold(name, "value"):
			one.value, one.has = part, true
		}
	}
	if one.op != "add" && one.op != "remove" && one.op != "replace" {
		return one, wrong(InvalidSyntax, "op is add, remove or replace, and not %.40q", one.op)
	}
	if one.op != "remove" && !one.has {
		return one, wrong(InvalidValue, "%s has no value", one.op)
	}
	return one, nil
}

// operate does one operation.
func (d *Draft) operate(one operation) error {
	if one.path != "" {
		return d.at(one)
	}
	if one.op == "remove" {
		return wrong(NoTarget, "what is removed has a path")
	}
	some, is := one.value.(map[string]any)
	if text, isText := one.value.(string); isText { // some clients send an object as a text
		is = json.Unmarshal([]byte(text), &some) == nil
	}
	if !is {
		return wrong(InvalidValue, "without a path the value is an object")
	}
	for _, name := range inOrder(some) {
		if isPassword(name) {
			return errPassword
		}
		if _, err := d.kind.path(name); err != nil && !strings.ContainsAny(name, "[") {
			continue // as of a whole body, what no schema has is passed over
		}
		if err := d.at(operation{op: one.op, path: name, value: some[name], has: true}); err != nil {
			return err
		}
	}
	return nil
}

// at does an operation at a path.
func (d *Draft) at(one operation) error {
	if isPassword(one.path) {
		return errPassword
	}
	name, text, rest, filtered, err := cutFilter(one.path)
	if err != nil {
		return wrong(InvalidPath, "%v", err)
	}
	p, err := d.kind.path(name)
	if err != nil || filtered && (p.Attr == nil || p.Sub != nil || p.Attr.Type != TypeComplex) {
		return wrong(InvalidPath, "there is no attribute %.200q of a %s", name, d.kind.Name)
	}
	if p.Attr != nil && p.Attr.isReadOnly() || p.Sub != nil && p.Sub.isReadOnly() {
		return d.untouched(one, p)
	}
	if !filtered {
		return d.plain(one, p)
	}
	f, err := parseFilter(text, p.Attr.part)
	if err != nil {
		return wrong(InvalidPath, "%v", err)
	}
	if rest != "" {
		if p.Sub = find(p.Attr.Sub, rest); p.Sub == nil {
			return wrong(InvalidPath, "there is no part %.200q of %s", rest, p.Attr.Name)
		}
		if p.Sub.isReadOnly() {
			return d.untouched(one, p)
		}
	}
	if p.Attr.Name == "members" && d.Members != nil {
		return d.someMembers(one, f)
	}
	return d.someValues(one, p, f)
}

// untouched is for what only the server sets: clients that send back what they were told change nothing.
func (d *Draft) untouched(one operation, p Path) error {
	if one.op == "remove" {
		return wrong(Mutability, "%s is set by the server alone", p)
	}
	return nil
}

// plain does an operation at an attribute, a part of one, or an extension.
func (d *Draft) plain(one operation, p Path) error {
	switch {
	case p.Attr == nil && one.op == "remove":
		delete(d.Doc, p.Schema.ID)
		return nil
	case p.Attr == nil:
		return d.mergeSchema(one, p.Schema)
	case p.Attr.Name == "members" && d.Members != nil:
		return d.allMembers(one)
	case one.op == "remove":
		return d.remove(one, p)
	case p.Sub != nil:
		return d.part(p, one.value)
	}
	clean, err := p.Attr.clean(one.value)
	if err != nil {
		return err
	}
	there := d.place(p.Schema)[p.Attr.Name]
	switch {
	case p.Attr.MultiValued && one.op == "add":
		clean, err = p.Attr.joined(there, clean)
	case p.Attr.Type == TypeComplex && !p.Attr.MultiValued:
		clean = merged(there, clean, one.value == nil)
	}
	if err == nil {
		d.put(p, clean)
	}
	return err
}

// merged is a value of parts with some of them set anew; `gone` says that all of it goes.
func merged(there, clean any, gone bool) any {
	old, was := there.(map[string]any)
	if gone || !was {
		return clean
	}
	to, _ := copied(old).(map[string]any)
	some, _ := clean.(map[string]any)
	for name, one := range some {
		to[name] = one
	}
	return to
}

// joined is a list of values with some more. One that is preferred has the others not be.
func (a *Attribute) joined(there, more any) (any, error) {
	all, some := listed(there), listed(more)
	for _, one := range some {
		if holds(all, one) {
			continue
		}
		if object, is := one.(map[string]any); is && object["primary"] == true {
			unprefer(all)
		}
		all = append(all, one)
	}
	return all, a.onePrimary(all)
}

// unprefer has no value be the preferred one.
func unprefer(all []any) {
	for i, one := range all {
		if some, is := one.(map[string]any); is && some["primary"] == true {
			to, _ := copied(some).(map[string]any)
			to["primary"] = false
			all[i] = to
		}
	}
}

// mergeSchema sets attributes of an extension.
func (d *Draft) mergeSchema(one operation, schema *Schema) error {
	some, is := one.value.(map[string]any)
	if !is {
		return wrong(InvalidValue, "%s is an object", schema.ID)
	}
	for _, name := range inOrder(some) {
		p, ok := within(schema, schema.Attributes, name)
		if !ok || p.Attr.isReadOnly() {
			continue
		}
		if err := d.plain(operation{op: one.op, path: name, value: some[name], has: true}, p); err != nil {
			return err
		}
	}
	return nil
}

// part sets a part of an attribute, of several values of each.
func (d *Draft) part(p Path, value any) error {
	clean, err := p.Sub.clean(value)
	if err != nil {
		return err
	}
	there := d.place(p.Schema)[p.Attr.Name]
	if p.Attr.MultiValued {
		all := listed(there)
		if len(all) == 0 {
			all = []any{map[string]any{}}
		}
		for i, one := range all {
			all[i] = withPart(one, p.Sub, clean)
		}
		d.put(p, without(all))
		return p.Attr.onePrimary(all)
	}
	d.put(p, whole(withPart(there, p.Sub, clean)))
	return nil
}

// withPart is a value with a part set, or taken away.
func withPart(value any, sub *Attribute, clean any) any {
	to, _ := copied(value).(map[string]any)
	if to == nil {
		to = map[string]any{}
	}
	if clean == nil {
		delete(to, sub.Name)
	} else {
		to[sub.Name] = clean
	}
	return to
}

// whole is a value, or nil where it has no part.
func whole(value any) any {
	if some, is := value.(map[string]any); is && len(some) == 0 {
		return nil
	}
	return value
}

// without are values without those that have no part.
func without(all []any) []any {
	var left []any
	for _, one := range all {
		if whole(one) != nil {
			left = append(left, one)
		}
	}
	return left
}

// remove takes an attribute away, a part of it, or those of its values that stand at `value`.
func (d *Draft) remove(one operation, p Path) error {
	if p.Attr.Required && p.Sub == nil {
		return wrong(Mutability, "%s is required", p)
	}
	if p.Sub != nil {
		return d.part(p, nil)
	}
	if !one.has || one.value == nil || !p.Attr.MultiValued {
		d.put(p, nil)
		return nil
	}
	clean, err := p.Attr.clean(one.value)
	if err != nil {
		return err
	}
	var left []any
	for _, value := range listed(d.place(p.Schema)[p.Attr.Name]) {
		if !p.Attr.isNamed(listed(clean), value) {
			left = append(left, value)
		}
	}
	d.put(p, left)
	return nil
}

// isNamed says whether one of some values names another: all that it has is so there.
func (a *Attribute) isNamed(by []any, value any) bool {
	for _, one := range by {
		some, is := one.(map[string]any)
		whole, was := value.(map[string]any)
		if !is || !was {
			if equal(one, value) {
				return true
			}
			continue
		}
		same := true
		for name, part := range some {
			same = same && equal(part, whole[name])
		}
		if same {
			return true
		}
	}
	return false
}
