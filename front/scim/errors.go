package scim

import (
	"fmt"
	"net/http"
)

// Error says why something isn't done, as RFC 7644 has it in 3.12.
type Error struct {
	Status int
	Type   string // one of the words of that section, or nothing
	Detail string
	Held   bool // provisioning is held, or is to be
	Excess bool // more people would go than may
	Moved  bool // what it was made of is another one by now
}

func (e *Error) Error() string { return e.Detail }

// The words of errors.
const (
	InvalidFilter = "invalidFilter"
	InvalidPath   = "invalidPath"
	InvalidSyntax = "invalidSyntax"
	InvalidValue  = "invalidValue"
	Mutability    = "mutability"
	NoTarget      = "noTarget"
	Uniqueness    = "uniqueness"
	TooMany       = "tooMany"
)

// wrong is an error of a request.
func wrong(kind, detail string, about ...any) *Error {
	return &Error{Status: http.StatusBadRequest, Type: kind, Detail: fmt.Sprintf(detail, about...)}
}

// Missing says that there is no such resource.
func Missing(kind, id string) *Error {
	return &Error{Status: http.StatusNotFound, Detail: fmt.Sprintf("there is no %s with the id %.100q", kind, id)}
}
