// Package undo says by which line an edit is taken back, from the edits before it alone.
package undo

import (
	"bytes"
	"encoding/json"
	"fmt"
	"strings"
)

// edit is the members of a line.
type edit map[string]json.RawMessage

// Past is what edits so far have set: for each thing the line that did it last.
type Past map[string]edit

// read reads a line. What isn't an edit touches nothing.
func read(line []byte) (edit, string, error) {
	var e edit
	if err := json.Unmarshal(line, &e); err != nil {
		return nil, "", fmt.Errorf("a line isn't an edit: %w", err)
	}
	delete(e, "session")
	return e, e.touches(), nil
}

// text is a member that is a text, or nothing.
func (e edit) text(name string) string {
	var text string
	_ = json.Unmarshal(e[name], &text)
	return text
}

// module is that of an edit.
func (e edit) module() string {
	if written, there := e["module"]; there {
		return string(written)
	}
	return "0"
}

// touches is what an edit sets, in words that are the same for each edit of it.
func (e edit) touches() string {
	var parts []string
	switch do := e.text("do"); do {
	case "person.add", "person.drop", "action.add", "action.drop", "resource.add", "resource.drop":
		kind, _, _ := strings.Cut(do, ".")
		parts = []string{kind, e.text("name")}
	case "attr.set":
		parts = []string{"attr", e.module(), category(e.text("category")), e.text("entity"), e.text("attribute"),
			lastWord(e.text("type")), e.text("issuer")}
	case "day.set", "moment.set":
		parts = []string{"moment"}
	case "root.set":
		parts = []string{"root"}
	case "policy.add", "policy.replace":
		kind, id, version := e.document()
		parts = []string{"policy", e.module(), kind, id, plain(version)}
	case "policy.withdraw":
		parts = []string{"policy", e.module(), e.text("kind"), e.text("id"), plain(e.text("version"))}
	}
	return strings.Join(parts, "\x00")
}

// document is the kind, the id and the version of an edit's document.
func (e edit) document() (kind, id, version string) {
	var document map[string]edit
	_ = json.Unmarshal(e["document"], &document)
	for kind, content := range document {
		return kind, content.text(kind + "Id"), content.text("Version")
	}
	return "", "", ""
}

// category is the short name of a category that may be written by its URI.
func category(written string) string {
	switch lastWord(written) {
	case "access-subject":
		return "AccessSubject"
	case "resource":
		return "Resource"
	case "action":
		return "Action"
	}
	return written
}

// lastWord is the last word of a URI.
func lastWord(uri string) string {
	return uri[strings.LastIndexAny(uri, "#:")+1:]
}

// plain is the one spelling of a version.
func plain(version string) string {
	numbers := strings.Split(version, ".")
	for i, number := range numbers {
		if number = strings.TrimLeft(number, "0"); number == "" {
			number = "0"
		}
		numbers[i] = number
	}
	return strings.Join(numbers, ".")
}

// Add takes an edit that was made.
func (p Past) Add(line []byte) error {
	e, touched, err := read(line)
	if err != nil || touched == "" {
		return err
	}
	p[touched] = e
	return nil
}

// Same says whether two lines set the same thing.
func Same(one, other []byte) bool {
	_, a, err1 := read(one)
	_, b, err2 := read(other)
	return err1 == nil && err2 == nil && a == b
}

// Back is the line that takes an edit back, which was made after what is past.
func (p Past) Back(line []byte) ([]byte, error) {
	e, touched, err := read(line)
	if err != nil {
		return nil, err
	}
	before := p[touched]
	switch do := e.text("do"); do {
	case "person.add", "action.add", "resource.add":
		return e.with("do", strings.TrimSuffix(do, "add")+"drop").line()
	case "person.drop", "action.drop", "resource.drop":
		return e.with("do", strings.TrimSuffix(do, "drop")+"add").line()
	case "attr.set":
		return before.or(e.with("values", []string{})).line()
	case "day.set", "moment.set":
		return before.or(edit{}.with("do", "day.set").with("day", nil)).line()
	case "root.set":
		return before.or(e.with("reference", nil)).line()
	case "policy.add":
		kind, id, version := e.document()
		back := edit{"module": json.RawMessage(e.module())}
		return back.with("do", "policy.withdraw").with("kind", kind).with("id", id).with("version", version).line()
	case "policy.replace", "policy.withdraw":
		if before["document"] == nil {
			return nil, fmt.Errorf("the edits before it don't tell the document that it took away")
		}
		back := edit{"module": json.RawMessage(e.module()), "document": before["document"]}
		if do == "policy.replace" {
			return back.with("do", do).line()
		}
		return back.with("do", "policy.add").line()
	default:
		return nil, fmt.Errorf("%q isn't known as an edit", do)
	}
}

// or is an edit, or another one where there is none.
func (e edit) or(other edit) edit {
	if e == nil {
		return other
	}
	return e
}

// with is an edit with another member.
func (e edit) with(name string, value any) edit {
	other := edit{}
	for known, written := range e {
		other[known] = written
	}
	// A text, a list of none and nothing can be written.
	other[name], _ = json.Marshal(value)
	return other
}

// line is an edit as it is sent.
func (e edit) line() ([]byte, error) {
	var to bytes.Buffer
	encoder := json.NewEncoder(&to)
	encoder.SetEscapeHTML(false)
	if err := encoder.Encode(e); err != nil {
		return nil, fmt.Errorf("a line: %w", err)
	}
	return bytes.TrimSuffix(to.Bytes(), []byte("\n")), nil
}
