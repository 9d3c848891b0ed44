package check

import (
	"errors"
	"fmt"
	"net/http"
	"sort"
	"strings"

	"review-front/places"
	"review-front/profile"
)

// Path is where a proxy asks. Where the request itself tells what is asked, its path stands behind this one.
const Path = "/check"

// Refusal says why a request isn't to be passed on.
type Refusal struct {
	Status    int // 401 or 403
	Reason    string
	Challenge string // how somebody may show who he is; nothing where it isn't said
}

// The attributes that have the names.
const (
	subjectID  = "urn:oasis:names:tc:xacml:1.0:subject:subject-id"
	actionID   = "urn:oasis:names:tc:xacml:1.0:action:action-id"
	resourceID = "urn:oasis:names:tc:xacml:1.0:resource:resource-id"
)

// otherwise are the fields by which some servers take a request for another one.
var otherwise = []string{
	"X-Http-Method-Override", "X-Http-Method", "X-Method-Override", "X-Original-Url", "X-Rewrite-Url",
}

func refused(reason string, pairs ...any) *Refusal {
	return &Refusal{Status: http.StatusForbidden, Reason: fmt.Sprintf(reason, pairs...)}
}

// ByFields says whether fields tell what is asked, and not the request itself.
func (m *Mapping) ByFields() bool { return m.method != "" }

// Asked is the request of XACML that asks what a proxy asks, or why that is refused.
func (m *Mapping) Asked(r *http.Request, known Known) ([]byte, *Refusal) {
	if no := m.plain(r.Header); no != nil {
		return nil, no
	}
	method, target := r.Method, strings.TrimPrefix(r.RequestURI, Path)
	if m.ByFields() {
		method, target = r.Header.Get(m.method), r.Header.Get(m.uri)
	}
	s, wrong := read(target)
	if wrong != "" {
		return nil, refused("%s", wrong)
	}
	name, claims, err := m.subject.of(r.Header.Get(m.subject.field()), known)
	if err != nil {
		return nil, &Refusal{http.StatusUnauthorized, err.Error(), m.subject.challenge}
	}
	subject := profile.Category{URI: profile.CategoryOf("AccessSubject")}
	subject.Attributes = []profile.Attribute{profile.Named(subjectID, name)}
	if err := m.subject.add(&subject, claims); err != nil {
		return nil, refused("a claim: %s", err)
	}
	action, resource, no := m.does(method, s)
	if no != nil {
		return nil, no
	}
	written, err := profile.Written([]profile.Category{subject, action, resource})
	if err != nil {
		return nil, refused("%s", err)
	}
	return written, nil
}

// plain sees that each field that counts stands once, in one spelling, and none has servers take the request for
// another one.
func (m *Mapping) plain(head http.Header) *Refusal {
	counts := map[string]bool{m.method: true, m.uri: true, m.subject.field(): true}
	for name, values := range head {
		alike := http.CanonicalHeaderKey(strings.ReplaceAll(name, "_", "-"))
		if counts[alike] && (alike != name || len(values) > 1) {
			return refused("the field %s stands twice", alike)
		}
		for _, one := range otherwise {
			if alike == one && !counts[alike] {
				return refused("the field %s names another request", alike)
			}
		}
	}
	for _, name := range []string{m.method, m.uri} {
		if name != "" && head.Get(name) == "" {
			return refused("the proxy says no %s", name)
		}
	}
	return nil
}

// add gives a subject the claims that are attributes.
func (s *subject) add(to *profile.Category, claims map[string][]string) error {
	for _, name := range sortedNames(s.claims) {
		var values []any
		for _, one := range claims[name] {
			values = append(values, one)
		}
		if len(values) == 0 {
			continue
		}
		if err := s.claims[name].give(to, name, values); err != nil {
			return err
		}
	}
	return nil
}

// give gives a category an attribute.
func (p property) give(to *profile.Category, name string, value any) error {
	if p.attribute == "" {
		return nil
	}
	datatype := p.datatype
	if datatype == "" {
		datatype = "string"
	}
	given, isHere, err := profile.Given(places.Node{Value: value}, p.attribute, datatype)
	var fault *places.Fault
	if errors.As(err, &fault) {
		return fmt.Errorf("%s: %s", name, fault.What)
	}
	if err == nil && isHere {
		to.Attributes = append(to.Attributes, given)
	}
	return err
}

// does is the action and the resource of a method and a path.
func (m *Mapping) does(method string, s seen) (action, resource profile.Category, no *Refusal) {
	if m.fold {
		for i, part := range s.parts {
			if doubtful(part) {
				return action, resource, refused("the path has a sign whose case servers take in several ways")
			}
			s.parts[i] = strings.ToLower(part)
		}
	}
	for _, one := range m.paths {
		found, covers := one.match(s)
		if !covers {
			continue
		}
		actions := m.actions
		if one.actions != nil {
			actions = one.actions
		}
		name, there := actions[method]
		if !there {
			return action, resource, refused("the method isn't known for this path")
		}
		action = profile.Category{URI: profile.CategoryOf("Action")}
		action.Attributes = []profile.Attribute{profile.Named(actionID, name)}
		resource, no = one.means(s, found)
		return action, resource, no
	}
	return action, resource, refused("no pattern covers the path")
}

// means is the resource of a path that a pattern covers.
func (p path) means(s seen, found map[string]string) (profile.Category, *Refusal) {
	resource := profile.Category{URI: profile.CategoryOf("Resource")}
	name := s.whole()
	if p.resource != nil {
		var one bool
		if name, one = p.resource.fill(found); !one {
			return resource, refused("a part of the path has what divides the resource's name")
		}
	}
	if name == "" || len(name) > places.NameBytes {
		return resource, refused("the resource's name is longer than %d bytes", places.NameBytes)
	}
	resource.Attributes = []profile.Attribute{profile.Named(resourceID, name)}
	for _, part := range p.names() {
		given, named := p.parts[part]
		if !named {
			if given.attribute = part; part == anyParts {
				given.attribute = "rest"
			}
		}
		if err := given.give(&resource, part, found[part]); err != nil {
			return resource, refused("a part of the path: %s", err)
		}
	}
	return resource, nil
}

func sortedNames(all map[string]property) []string {
	var names []string
	for name := range all {
		names = append(names, name)
	}
	sort.Strings(names)
	return names
}
