package line

import (
	"bytes"
	"encoding/json"
)

// Asking wraps a request as a line. It is false where the body isn't one object.
func Asking(body []byte) ([]byte, bool) {
	object, ok := objectOf(body)
	if !ok {
		return nil, false
	}
	const before = `{"do":"ask","request":`
	l := make([]byte, 0, len(before)+len(object)+1)
	l = append(l, before...)
	l = append(l, object...)
	return append(l, '}'), true
}

// Commanding is the line of a command whose other keys are a body; without one it has none. It is false where the body
// isn't one object. A command that the body names doesn't count: the last of several keys that are equal does.
func Commanding(do string, body []byte) ([]byte, bool) {
	if len(bytes.Trim(body, blanks)) == 0 {
		body = []byte("{}")
	}
	object, ok := objectOf(body)
	if !ok || object[len(object)-1] != '}' {
		return nil, false
	}
	named, err := json.Marshal(do)
	if err != nil {
		return nil, false
	}
	l := append([]byte(nil), object[:len(object)-1]...)
	if len(bytes.Trim(l, blanks)) > 1 {
		l = append(l, ',')
	}
	l = append(l, `"do":`...)
	l = append(l, named...)
	return append(l, '}'), true
}

const blanks = " \t\r\n"

// objectOf is a body without the blanks around it, as a part of one line: blanks stand for the newlines between its
// values. It is false where the body isn't one object by its brackets, so that nothing in it can be a key of the line,
// and where there is a newline in a text, which JSON doesn't have.
func objectOf(body []byte) ([]byte, bool) {
	body = bytes.Trim(body, blanks)
	if len(body) == 0 || body[0] != '{' {
		return nil, false
	}
	if end, ok := skip(body, 0); !ok || end != len(body) {
		return nil, false
	}
	if bytes.IndexByte(body, '\n') < 0 {
		return body, true
	}
	return oneLine(body)
}

// oneLine puts blanks for newlines, but in texts.
func oneLine(body []byte) ([]byte, bool) {
	for at := 0; at < len(body); at++ {
		switch body[at] {
		case '\n':
			body[at] = ' '
		case '"':
			end, ok := skipText(body, at)
			if !ok || bytes.IndexByte(body[at:end], '\n') >= 0 {
				return nil, false
			}
			at = end - 1
		}
	}
	return body, true
}
