// Package scim keeps users and groups as SCIM has them (RFC 7643, 7644): what their schemas are, which records of the
// journal make and change them, and what is asked of them.
package scim

import (
	"strings"
)

// The schemas that there are without being told, and those of messages.
const (
	UserSchema       = "urn:ietf:params:scim:schemas:core:2.0:User"
	GroupSchema      = "urn:ietf:params:scim:schemas:core:2.0:Group"
	EnterpriseSchema = "urn:ietf:params:scim:schemas:extension:enterprise:2.0:User"

	messages     = "urn:ietf:params:scim:api:messages:2.0:"
	ListMessage  = messages + "ListResponse"
	PatchMessage = messages + "PatchOp"
	ErrorMessage = messages + "Error"
)

// The types of attributes.
const (
	TypeString    = "string"
	TypeBoolean   = "boolean"
	TypeDecimal   = "decimal"
	TypeInteger   = "integer"
	TypeDateTime  = "dateTime"
	TypeBinary    = "binary"
	TypeReference = "reference"
	TypeComplex   = "complex"
)

// Schema is one of resources (RFC 7643, 7).
type Schema struct {
	ID          string       `json:"id"`
	Name        string       `json:"name"`
	Description string       `json:"description"`
	Attributes  []*Attribute `json:"attributes"`
}

// Attribute is what a schema says of an attribute, or of one within another.
type Attribute struct {
	Name        string       `json:"name"`
	Type        string       `json:"type"`
	MultiValued bool         `json:"multiValued"`
	Description string       `json:"description"`
	Required    bool         `json:"required"`
	CaseExact   bool         `json:"caseExact"`
	Mutability  string       `json:"mutability"`
	Returned    string       `json:"returned"`
	Uniqueness  string       `json:"uniqueness"`
	Canonical   []string     `json:"canonicalValues,omitempty"`
	References  []string     `json:"referenceTypes,omitempty"`
	Sub         []*Attribute `json:"subAttributes,omitempty"`
}

// find is the attribute of a name, in whatever case, or nil.
func find(all []*Attribute, name string) *Attribute {
	for _, one := range all {
		if strings.EqualFold(one.Name, name) {
			return one
		}
	}
	return nil
}

// isReadOnly says whether clients can't set it.
func (a *Attribute) isReadOnly() bool { return a.Mutability == "readOnly" }

// Kind is a type of resources: its schema, and those that may extend it.
type Kind struct {
	Name       string // User or Group
	Endpoint   string
	Core       *Schema
	Extensions []*Schema
}

// extension is one of a kind's by its id, in whatever case, or nil.
func (k *Kind) extension(id string) *Schema {
	for _, one := range k.Extensions {
		if strings.EqualFold(one.ID, id) {
			return one
		}
	}
	return nil
}

// Kinds are those of a front.
type Kinds struct{ User, Group *Kind }

// NewKinds are the types of resources, where users have some more schemas.
func NewKinds(more ...*Schema) *Kinds {
	return &Kinds{
		User: &Kind{
			Name: "User", Endpoint: "/Users", Core: userSchema, Extensions: append([]*Schema{enterpriseSchema}, more...),
		},
		Group: &Kind{Name: "Group", Endpoint: "/Groups", Core: groupSchema},
	}
}

// Of is the kind of a name, or nil.
func (k *Kinds) Of(name string) *Kind {
	switch name {
	case "User":
		return k.User
	case "Group":
		return k.Group
	}
	return nil
}

// All are both.
func (k *Kinds) All() []*Kind { return []*Kind{k.User, k.Group} }

// Schemas are those of all kinds.
func (k *Kinds) Schemas() []*Schema {
	return append([]*Schema{k.User.Core, k.Group.Core}, k.User.Extensions...)
}

// common are the attributes that each resource has (RFC 7643, 3.1).
var common = []*Attribute{
	{Name: "schemas", Type: TypeReference, MultiValued: true, CaseExact: true, Mutability: "readOnly", Returned: "always"},
	{Name: "id", Type: TypeString, CaseExact: true, Mutability: "readOnly", Returned: "always"},
	{Name: "externalId", Type: TypeString, CaseExact: true, Mutability: "readWrite", Returned: "default"},
	{Name: "meta", Type: TypeComplex, Mutability: "readOnly", Returned: "default", Sub: []*Attribute{
		{Name: "resourceType", Type: TypeString, CaseExact: true, Mutability: "readOnly", Returned: "default"},
		{Name: "created", Type: TypeDateTime, Mutability: "readOnly", Returned: "default"},
		{Name: "lastModified", Type: TypeDateTime, Mutability: "readOnly", Returned: "default"},
		{Name: "location", Type: TypeReference, CaseExact: true, Mutability: "readOnly", Returned: "default"},
		{Name: "version", Type: TypeString, CaseExact: true, Mutability: "readOnly", Returned: "default"},
	}},
}
