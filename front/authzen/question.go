package authzen

import (
	"review-front/places"
	"review-front/profile"
)

// Part is one of the three that an evaluation names.
type Part string

// The parts of a question, each of which can be searched for.
const (
	Subject  Part = "subject"
	Action   Part = "action"
	Resource Part = "resource"
)

// Question is what an evaluation asks, or with one of its names left out, a search.
type Question struct {
	subject, action, resource, context given
}

// given is what a part of a question gives.
type given struct {
	kind       *kind
	name       string
	attributes []profile.Attribute // of its properties
}

// Evaluation reads the question of an evaluation.
func (m *Mapping) Evaluation(n places.Node) (Question, error) { return m.question(n, "") }

// question reads a question in which the name of one part may be absent.
func (m *Mapping) question(n places.Node, sought Part) (Question, error) {
	var q Question
	if _, ok := n.Value.(map[string]any); !ok {
		return q, n.Fault("it isn't an object")
	}
	err := q.subject.entity(n, Subject, m.subjects, sought)
	if err == nil {
		err = q.resource.entity(n, Resource, m.resources, sought)
	}
	if err != nil {
		return q, err
	}
	q.action.kind = m.action
	if sought != Action {
		at, err := n.Needed(string(Action))
		if err != nil {
			return q, err
		}
		if q.action.name, err = nameAt(at, "name"); err == nil {
			err = q.action.properties(at, "properties")
		}
		if err != nil {
			return q, err
		}
	}
	q.context.kind = m.context
	return q, q.context.properties(n, "context")
}

// entity reads the subject or the resource.
func (g *given) entity(n places.Node, part Part, kinds map[string]*kind, sought Part) error {
	at, err := n.Needed(string(part))
	if err != nil {
		return err
	}
	named, err := nameAt(at, "type")
	if err != nil {
		return err
	}
	known, there := kinds[named]
	if !there {
		at, _ := at.Child("type")
		return at.Fault("the type %q isn't known here", named)
	}
	g.kind = known
	if part != sought {
		id, err := nameAt(at, "id")
		if err != nil {
			return err
		}
		g.name = known.prefix + id
	}
	return g.properties(at, "properties")
}

// nameAt is the text at a key that has to be there, of an object.
func nameAt(at places.Node, key string) (string, error) {
	if _, ok := at.Value.(map[string]any); !ok {
		return "", at.Fault("it isn't an object")
	}
	return at.NeededName(key)
}

// properties reads the properties at a key, which may be absent.
func (g *given) properties(n places.Node, key string) error {
	all, there := n.Child(key)
	if !there {
		return nil
	}
	named, ok := all.Value.(map[string]any)
	if !ok {
		return all.Fault("it isn't an object")
	}
	for _, name := range sorted(named) {
		at, _ := all.Child(name)
		known, there := g.kind.properties[name]
		if !there && !g.kind.others {
			return at.Fault("the property %q isn't known here", name)
		}
		if known == nil {
			continue
		}
		at.Value = inSeconds(known.datatype, at.Value)
		attribute, isHere, err := profile.Given(at, known.attribute, known.datatype)
		if err != nil {
			return err
		}
		if isHere {
			g.attributes = append(g.attributes, attribute)
		}
	}
	return nil
}

// Request is the request that asks a question.
func (q Question) Request() ([]byte, error) {
	var categories []profile.Category
	place := map[string]int{}
	for _, part := range []given{q.subject, q.action, q.resource, q.context} {
		attributes := part.attributes
		if part.kind.id != "" {
			attributes = append([]profile.Attribute{profile.Named(part.kind.id, part.name)}, attributes...)
		}
		at, there := place[part.kind.category]
		if !there {
			at = len(categories)
			place[part.kind.category] = at
			empty := profile.Category{URI: part.kind.category, Attributes: []profile.Attribute{}}
			categories = append(categories, empty)
		}
		categories[at].Attributes = append(categories[at].Attributes, attributes...)
	}
	return profile.Written(categories)
}

// IsPlain says whether a question holds the three names alone, as a cell of the table does.
func (q Question) IsPlain() bool {
	for _, part := range []given{q.subject, q.action, q.resource, q.context} {
		if len(part.attributes) > 0 {
			return false
		}
	}
	return q.subject.kind.isOf(tableSubject) && q.action.kind.isOf(tableAction) && q.resource.kind.isOf(tableResource)
}
