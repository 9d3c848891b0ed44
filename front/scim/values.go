package scim

import "sort"

// inOrder are the names of an object in their order.
func inOrder(some map[string]any) []string {
	names := make([]string, 0, len(some))
	for name := range some {
		names = append(names, name)
	}
	sort.Strings(names)
	return names
}

// someValues does an operation at those values of an attribute that a filter means, or at a part of them.
func (d *Draft) someValues(one operation, p Path, f Filter) error {
	there := listed(d.place(p.Schema)[p.Attr.Name])
	var all []any
	met := false
	for _, value := range there {
		some, is := value.(map[string]any)
		if !is || !f.matches(parts(some)) {
			all = append(all, value)
			continue
		}
		met = true
		changed, err := p.changed(one, some)
		if err != nil {
			return err
		}
		if changed = whole(changed); changed != nil {
			all = append(all, changed)
		}
	}
	if !met {
		if one.op == "remove" {
			return nil // it is gone already
		}
		made, err := p.made(one, f)
		if err != nil {
			return err
		}
		if all = append(all, made); made["primary"] == true {
			unprefer(all[:len(all)-1])
		}
	}
	if err := p.Attr.onePrimary(all); err != nil {
		return err
	}
	d.put(p, all)
	return nil
}

// changed is a value behind an operation, or nil where it goes.
func (p Path) changed(one operation, value map[string]any) (any, error) {
	switch {
	case one.op == "remove" && p.Sub == nil:
		return nil, nil
	case one.op == "remove":
		return withPart(value, p.Sub, nil), nil
	case p.Sub != nil:
		clean, err := p.Sub.clean(one.value)
		return withPart(value, p.Sub, clean), err
	}
	clean, err := p.Attr.cleanOne(one.value)
	if one.op == "add" || err != nil {
		return merged(value, clean, false), err
	}
	return clean, nil
}

// made is a value that there is none of yet, as a filter names it: emails[type eq "work"].value makes one of that type.
// That is so where something is added; what is replaced has to be there.
func (p Path) made(one operation, f Filter) (map[string]any, error) {
	if one.op != "add" {
		return nil, wrong(NoTarget, "%s has no value that the filter means", p.Attr.Name)
	}
	to := map[string]any{}
	if !named(f, to) {
		return nil, wrong(NoTarget, "%s has no value that the filter means, and it names none", p.Attr.Name)
	}
	value := one.value
	if p.Sub != nil {
		value = map[string]any{p.Sub.Name: value}
	}
	clean, err := p.Attr.cleanOne(value)
	if err != nil {
		return nil, err
	}
	some, _ := clean.(map[string]any)
	for name, part := range some {
		to[name] = part
	}
	return to, nil
}

// named puts the parts into a value that a filter says it has, and is false where it says something else.
func named(f Filter, to map[string]any) bool {
	switch some := f.(type) {
	case compared:
		if some.op != "eq" || some.value == nil {
			return false
		}
		to[some.path.Attr.Name] = some.value
		return true
	case and:
		for _, one := range some {
			if !named(one, to) {
				return false
			}
		}
		return true
	}
	return false
}

// allMembers does an operation at the members of a group.
func (d *Draft) allMembers(one operation) error {
	if one.op == "remove" && (!one.has || one.value == nil) {
		d.Members.Clear()
		return nil
	}
	ids, err := memberIDs(one.value)
	if err != nil {
		return err
	}
	switch one.op {
	case "remove":
		d.Members.Drop(ids)
		return nil
	case "replace":
		d.Members.Clear()
	}
	return d.Members.Add(ids)
}

// someMembers does an operation at those members that a filter means: they can only go.
func (d *Draft) someMembers(one operation, f Filter) error {
	ids := d.Members.those(f)
	if one.op == "remove" {
		d.Members.Drop(ids)
		return nil
	}
	if len(ids) > 0 {
		return nil
	}
	to := map[string]any{}
	if id := ""; one.op == "add" && named(f, to) {
		if id, _ = to["value"].(string); id != "" {
			return d.Members.Add([]string{id})
		}
	}
	return wrong(NoTarget, "no member is one that the filter means")
}
