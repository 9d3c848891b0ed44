package scim

import (
	"bytes"
	"encoding/json"
	"strconv"
	"strings"
	"sync/atomic"
	"time"
)

// Resource is a user or a group as it is behind a record. It isn't changed: another one takes its place. Members of a
// group stand in the table.
type Resource struct {
	Kind     string
	ID       string
	Born     uint64 // the serial of the record that made it
	Serial   uint64 // that of the last one that changed it
	Created  time.Time
	Modified time.Time
	Key      string // userName, or displayName of a group, in small letters
	Active   bool
	raw      json.RawMessage
	read     atomic.Pointer[map[string]any]
}

// Doc is what clients set of it, by the names of schemas. It isn't to be changed.
func (r *Resource) Doc() map[string]any {
	if known := r.read.Load(); known != nil {
		return *known
	}
	doc, err := decode(r.raw)
	if err != nil {
		doc = map[string]any{}
	}
	r.read.Store(&doc)
	return doc
}

// decode reads an object, whose numbers stay as they are written.
func decode(raw []byte) (map[string]any, error) {
	from := json.NewDecoder(bytes.NewReader(raw))
	from.UseNumber()
	var doc map[string]any
	if err := from.Decode(&doc); err != nil {
		return nil, err
	}
	if from.More() {
		return nil, errBehind
	}
	return doc, nil
}

// Version is its version, as a field of heads has it.
func (r *Resource) Version() string { return `W/"` + strconv.FormatUint(r.Serial, 10) + `"` }

// ReadVersion reads a version.
func ReadVersion(written string) (uint64, bool) {
	text := strings.TrimPrefix(strings.TrimSpace(written), "W/")
	if len(text) < 3 || text[0] != '"' || text[len(text)-1] != '"' {
		return 0, false
	}
	serial, err := strconv.ParseUint(text[1:len(text)-1], 10, 64)
	return serial, err == nil
}

// moment is how moments are told.
func moment(at time.Time) string { return at.UTC().Format("2006-01-02T15:04:05.999Z") }

// View is a resource with what isn't its own: its place, its groups or its members.
type View struct {
	*Resource
	kind  *Kind
	table *Table
	base  string
}

// of is the value of an attribute.
func (v View) of(schema *Schema, attribute *Attribute) any {
	doc := v.Doc()
	if schema != nil {
		some, _ := doc[schema.ID].(map[string]any)
		return some[attribute.Name]
	}
	switch attribute.Name {
	case "id":
		return v.ID
	case "schemas":
		return v.schemas()
	case "meta":
		return v.meta()
	case "groups":
		return v.table.groupsOf(v.ID, v.base)
	case "members":
		return v.table.membersOf(v.ID, v.base)
	}
	return doc[attribute.Name]
}

// schemas are those that the resource has.
func (v View) schemas() []any {
	all := []any{v.kind.Core.ID}
	for _, one := range v.kind.Extensions {
		if v.Doc()[one.ID] != nil {
			all = append(all, one.ID)
		}
	}
	return all
}

// meta is what is said of the resource.
func (v View) meta() map[string]any {
	return map[string]any{
		"resourceType": v.Kind, "created": moment(v.Created), "lastModified": moment(v.Modified),
		"location": v.Location(), "version": v.Version(),
	}
}

// Location is where the resource is.
func (v View) Location() string { return v.base + v.kind.Endpoint + "/" + v.ID }

// Asked says which attributes are told: those alone, or all that are told without being asked for, but for some.
type Asked struct{ Only, But []Path }

// has says whether an attribute, or a part of one, is told.
func (a Asked) has(p Path) bool {
	attribute := p.Attr
	if p.Sub != nil {
		attribute = p.Sub
	}
	if attribute.Returned == "always" {
		return true
	}
	for _, but := range a.But {
		if but.Has(p) {
			return false
		}
	}
	if len(a.Only) == 0 {
		return attribute.Returned != "request"
	}
	for _, only := range a.Only {
		if only.Has(p) || p.Sub == nil && p.Has(only) {
			return true
		}
	}
	return false
}

// Tell is the resource as it is told.
func (v View) Tell(asked Asked) map[string]any {
	told := map[string]any{}
	for _, one := range append(append([]*Attribute(nil), common...), v.kind.Core.Attributes...) {
		if p := (Path{Attr: one}); asked.has(p) {
			put(told, one.Name, asked.parts(p, v.of(nil, one)))
		}
	}
	for _, schema := range v.kind.Extensions {
		some := map[string]any{}
		for _, one := range schema.Attributes {
			if p := (Path{Schema: schema, Attr: one}); asked.has(p) {
				put(some, one.Name, asked.parts(p, v.of(schema, one)))
			}
		}
		if len(some) > 0 {
			told[schema.ID] = some
		}
	}
	return told
}

// put puts what is there.
func put(to map[string]any, name string, value any) {
	if some, is := value.([]any); value != nil && !(is && len(some) == 0) {
		to[name] = value
	}
}

// parts are those of a value that are told.
func (a Asked) parts(p Path, value any) any {
	if len(p.Attr.Sub) == 0 || len(a.Only) == 0 && len(a.But) == 0 {
		return value
	}
	some, many := value.([]any)
	if !many {
		if one, is := value.(map[string]any); is {
			return a.part(p, one)
		}
		return value
	}
	all := make([]any, 0, len(some))
	for _, one := range some {
		if one, is := one.(map[string]any); is {
			all = append(all, a.part(p, one))
		}
	}
	return all
}

func (a Asked) part(p Path, value map[string]any) map[string]any {
	told := map[string]any{}
	for _, sub := range p.Attr.Sub {
		if of := (Path{Schema: p.Schema, Attr: p.Attr, Sub: sub}); a.has(of) {
			put(told, sub.Name, value[sub.Name])
		}
	}
	return told
}
