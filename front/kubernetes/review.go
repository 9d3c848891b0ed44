// Package kubernetes puts what an API server of Kubernetes asks of an authorizer, a SubjectAccessReview, as a request
// of XACML, and decisions as its answers. What it says of that API is from memory of its pages.
package kubernetes

import (
	"fmt"
	"sort"
	"strings"

	"review-front/places"
	"review-front/profile"
)

// The version and the kind of what is read and answered.
const (
	Version = "authorization.k8s.io/v1"
	Kind    = "SubjectAccessReview"
)

// The attributes of the names, which are those of the table.
const (
	subjectID  = "urn:oasis:names:tc:xacml:1.0:subject:subject-id"
	actionID   = "urn:oasis:names:tc:xacml:1.0:action:action-id"
	resourceID = "urn:oasis:names:tc:xacml:1.0:resource:resource-id"
)

// Unclear says that what is asked could be read as something else, so that nothing is said of it.
type Unclear struct{ What string }

func (u *Unclear) Error() string { return u.What }

// part is a key of what is asked and the attribute that it is.
type part struct{ key, attribute string }

// parts are those of a request for a resource, in the order of their attributes.
var parts = []part{
	{"namespace", "namespace"}, {"group", "api-group"}, {"version", "api-version"}, {"resource", "resource"},
	{"subresource", "subresource"}, {"name", "name"},
}

// Request is the request that asks what a review does.
func Request(root places.Node) ([]byte, error) {
	spec, err := specOf(root)
	if err != nil {
		return nil, err
	}
	subject, err := subjectOf(spec)
	if err != nil {
		return nil, err
	}
	asked, isResource := spec.Child("resourceAttributes")
	path, isPath := spec.Child("nonResourceAttributes")
	if isResource == isPath {
		return nil, spec.Fault("it has one of resourceAttributes and nonResourceAttributes")
	}
	if isPath {
		asked = path
	}
	if !isObject(asked) {
		return nil, asked.Fault("it isn't an object")
	}
	verb, _, err := asked.Text("verb")
	if err != nil {
		return nil, err
	}
	if verb == "" {
		return nil, asked.Fault("verb is missing")
	}
	var resource []profile.Attribute
	if isPath {
		resource, err = pathOf(asked)
	} else {
		resource, err = resourceOf(asked)
	}
	if err != nil {
		return nil, err
	}
	return profile.Written([]profile.Category{
		{URI: profile.CategoryOf("AccessSubject"), Attributes: subject},
		{URI: profile.CategoryOf("Action"), Attributes: []profile.Attribute{profile.Named(actionID, verb)}},
		{URI: profile.CategoryOf("Resource"), Attributes: resource},
	})
}

// specOf is what a review asks, if it is one of this version. What it says besides is passed over.
func specOf(root places.Node) (places.Node, error) {
	if !isObject(root) {
		return root, root.Fault("it isn't an object")
	}
	for key, want := range map[string]string{"apiVersion": Version, "kind": Kind} {
		told, _, err := root.Text(key)
		if err != nil {
			return root, err
		}
		if told != want {
			at, _ := root.Child(key)
			return root, at.Fault("it isn't %s", want)
		}
	}
	spec, err := root.Needed("spec")
	if err == nil && !isObject(spec) {
		err = spec.Fault("it isn't an object")
	}
	return spec, err
}

// subjectOf has the attributes of who asks the API server.
func subjectOf(spec places.Node) ([]profile.Attribute, error) {
	subject := []profile.Attribute{}
	user, _, err := spec.Text("user")
	if err != nil {
		return nil, err
	}
	if user != "" {
		subject = append(subject, profile.Named(subjectID, user))
	}
	groups, err := textsAt(spec, "groups")
	if err != nil {
		return nil, err
	}
	if user == "" && len(groups) == 0 {
		return nil, spec.Fault("it has user or groups")
	}
	subject = bag(subject, "group", groups)
	uid, _, err := spec.Text("uid")
	if err != nil {
		return nil, err
	}
	if uid != "" {
		subject = append(subject, profile.Named("uid", uid))
	}
	extra, there := spec.Child("extra")
	if !there || extra.Value == nil {
		return subject, nil
	}
	if !isObject(extra) {
		return nil, extra.Fault("it isn't an object")
	}
	for _, key := range sorted(extra) {
		values, err := textsAt(extra, key)
		if err != nil {
			return nil, err
		}
		subject = bag(subject, "extra:"+key, values)
	}
	return subject, nil
}

// resourceOf has the attributes of a resource. Its id is NAMESPACE:RESOURCE.GROUP/SUBRESOURCE, of which absent parts
// and their marks are left out. A part that has one of these marks could make the id of another resource.
func resourceOf(asked places.Node) ([]profile.Attribute, error) {
	told := map[string]string{}
	attributes := []profile.Attribute{{}}
	for _, part := range parts {
		text, _, err := asked.Text(part.key)
		if err != nil {
			return nil, err
		}
		told[part.key] = text
		if text != "" || part.key == "group" {
			attributes = append(attributes, profile.Named(part.attribute, text))
		}
	}
	if told["resource"] == "" {
		return nil, asked.Fault("resource is missing")
	}
	for key, marks := range map[string]string{"namespace": ":/", "resource": ":/.", "group": ":/", "subresource": ":"} {
		if strings.ContainsAny(told[key], marks) {
			return nil, &Unclear{fmt.Sprintf("%s %q has one of %s", key, told[key], marks)}
		}
	}
	id := told["resource"]
	if told["group"] != "" {
		id += "." + told["group"]
	}
	if told["subresource"] != "" {
		id += "/" + told["subresource"]
	}
	if told["namespace"] != "" {
		id = told["namespace"] + ":" + id
	}
	attributes[0] = profile.Named(resourceID, id)
	return attributes, nil
}

// pathOf has the attributes of a path that is no resource's: it is its own id.
func pathOf(asked places.Node) ([]profile.Attribute, error) {
	path, _, err := asked.Text("path")
	if err != nil {
		return nil, err
	}
	if !strings.HasPrefix(path, "/") {
		return nil, &Unclear{fmt.Sprintf("the path %q doesn't begin with /", path)}
	}
	return []profile.Attribute{profile.Named(resourceID, path), profile.Named("path", path)}, nil
}

// bag adds an attribute with values, if there are any.
func bag(to []profile.Attribute, id string, values []string) []profile.Attribute {
	if len(values) == 0 {
		return to
	}
	attribute := profile.Named(id, "")
	attribute.Values = nil
	for _, value := range values {
		attribute.Values = append(attribute.Values, value)
	}
	return append(to, attribute)
}

// textsAt are the texts of the list at a key, which may be absent or null.
func textsAt(n places.Node, key string) ([]string, error) {
	at, there := n.Child(key)
	if !there || at.Value == nil {
		return nil, nil
	}
	list, ok := at.Value.([]any)
	if !ok {
		return nil, at.Fault("it isn't a list")
	}
	var texts []string
	for _, value := range list {
		text, ok := value.(string)
		if !ok {
			return nil, at.Fault("a member isn't a text")
		}
		texts = append(texts, text)
	}
	return texts, nil
}

func isObject(n places.Node) bool {
	_, is := n.Value.(map[string]any)
	return is
}

// sorted lists the keys of an object in byte order.
func sorted(n places.Node) []string {
	var keys []string
	for key := range n.Value.(map[string]any) {
		keys = append(keys, key)
	}
	sort.Strings(keys)
	return keys
}
