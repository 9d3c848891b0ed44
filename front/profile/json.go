package profile

import "review-front/places"

// Read reads a request of the JSON Profile 1.1 as one or more that the program takes, at most so many. An error is a
// *places.Fault or a *Many.
func Read(body []byte, most int) ([][]byte, error) {
	root, err := places.Parse(body)
	if err != nil {
		return nil, err
	}
	if err := root.Only("Request"); err != nil {
		return nil, err
	}
	request, err := root.Needed("Request")
	if err != nil {
		return nil, err
	}
	categories, references, err := partsOf(request)
	if err != nil {
		return nil, err
	}
	requests, err := several(categories, references, most)
	if err != nil {
		return nil, err
	}
	return all(requests, most)
}

// partsOf reads what a request holds: its categories, those at short names first, and which of them belong together.
func partsOf(n places.Node) ([]Category, []reference, error) {
	keys := []string{"Category", "CombinedDecision", "MultiRequests", "ReturnPolicyIdList", "XPathVersion"}
	for _, one := range named {
		keys = append(keys, one.name)
	}
	if err := n.Only(keys...); err != nil {
		return nil, nil, err
	}
	for _, wish := range []string{"CombinedDecision", "ReturnPolicyIdList"} {
		wished, err := n.Flag(wish)
		if err == nil && wished {
			at, _ := n.Child(wish)
			err = at.Fault("%s isn't here", wish)
		}
		if err != nil {
			return nil, nil, err
		}
	}
	if _, _, err := n.Text("XPathVersion"); err != nil {
		return nil, nil, err
	}
	categories, err := categoriesOf(n)
	if err != nil {
		return nil, nil, err
	}
	references, err := referencesOf(n)
	return categories, references, err
}

// categoriesOf reads the categories of a request.
func categoriesOf(n places.Node) ([]Category, error) {
	var categories []Category
	read := func(from []places.Node, uri string) error {
		for _, one := range from {
			category, err := categoryOf(one, uri)
			if err != nil {
				return err
			}
			categories = append(categories, category)
		}
		return nil
	}
	for _, one := range named {
		found, err := n.Many(one.name)
		if err == nil {
			err = read(found, one.uri)
		}
		if err != nil {
			return nil, err
		}
	}
	found, err := n.Many("Category")
	if err == nil {
		err = read(found, "")
	}
	return categories, err
}

// categoryOf reads a category that stands at a short name, or else names itself.
func categoryOf(n places.Node, uri string) (Category, error) {
	keys := []string{"Attribute", "Id"}
	if uri == "" {
		keys = append(keys, "CategoryId")
	}
	found := Category{place: n.Place}
	if object, ok := n.Value.(map[string]any); ok && object["Content"] != nil {
		at, _ := n.Child("Content")
		return found, at.Fault("Content isn't here: attributes are values")
	}
	err := n.Only(keys...)
	if err != nil {
		return found, err
	}
	if found.URI = uri; uri == "" {
		name, err := n.NeededName("CategoryId")
		if err != nil {
			return found, err
		}
		found.URI = CategoryOf(name)
	}
	if found.name, _, err = n.Text("Id"); err != nil {
		return found, err
	}
	attributes, err := n.Many("Attribute")
	if err != nil {
		return found, err
	}
	found.Attributes = []Attribute{}
	for _, one := range attributes {
		attribute, isHere, err := attributeOf(one)
		if err != nil {
			return found, err
		}
		if isHere {
			found.Attributes = append(found.Attributes, attribute)
		}
	}
	return found, nil
}

// referencesOf reads which categories belong together; nil where a request doesn't say it.
func referencesOf(n places.Node) ([]reference, error) {
	all, there := n.Child("MultiRequests")
	if !there {
		return nil, nil
	}
	if err := all.Only("RequestReference"); err != nil {
		return nil, err
	}
	found, err := all.Many("RequestReference")
	if err != nil {
		return nil, err
	}
	if len(found) == 0 {
		return nil, all.Fault("it has no RequestReference")
	}
	var references []reference
	for _, one := range found {
		if err := one.Only("ReferenceId"); err != nil {
			return nil, err
		}
		ids, err := one.Many("ReferenceId")
		if err != nil {
			return nil, err
		}
		if len(ids) == 0 {
			return nil, one.Fault("it has no ReferenceId")
		}
		read := reference{place: one.Place}
		for _, id := range ids {
			name, ok := id.Value.(string)
			if !ok {
				return nil, id.Fault("it isn't a text")
			}
			read.names = append(read.names, name)
		}
		references = append(references, read)
	}
	return references, nil
}
