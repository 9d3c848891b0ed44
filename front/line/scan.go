package line

import "encoding/json"

// read is the top level of an object.
type read struct {
	do      string
	session []byte // as it is written; nil where it is absent
	since   []byte // the same
	others  bool   // whether there is another key
}

// keys reads the top level of an object, and is false where it has no text at `do`.
func keys(l []byte) (r read, ok bool) {
	at := space(l, 0)
	if at >= len(l) || l[at] != '{' {
		return read{}, false
	}
	named := false
	at = space(l, at+1)
	for at < len(l) && l[at] != '}' {
		key, next, ok := text(l, at)
		if !ok {
			return read{}, false
		}
		at = space(l, next)
		if at >= len(l) || l[at] != ':' {
			return read{}, false
		}
		from := space(l, at+1)
		to, ok := skip(l, from)
		if !ok {
			return read{}, false
		}
		switch key {
		case "do":
			r.do, _, named = text(l[:to], from)
		case "session":
			r.session = l[from:to]
		case "since":
			r.since = l[from:to]
		default:
			r.others = true
		}
		at = space(l, to)
		if at < len(l) && l[at] == ',' {
			at = space(l, at+1)
		}
	}
	return r, named && at < len(l)
}

// space is the first place from `at` on that is no white space.
func space(l []byte, at int) int {
	for at < len(l) && (l[at] == ' ' || l[at] == '\t' || l[at] == '\r' || l[at] == '\n') {
		at++
	}
	return at
}

// text reads the text that begins at a place, and says where it ends.
func text(l []byte, at int) (string, int, bool) {
	end, ok := skipText(l, at)
	if !ok {
		return "", at, false
	}
	inner := l[at+1 : end-1]
	for _, b := range inner {
		if b == '\\' {
			var s string
			err := json.Unmarshal(l[at:end], &s)
			return s, end, err == nil
		}
	}
	return string(inner), end, true
}

// skipText is the place behind the text that begins at `at`.
func skipText(l []byte, at int) (int, bool) {
	if at >= len(l) || l[at] != '"' {
		return at, false
	}
	for at++; at < len(l); at++ {
		switch l[at] {
		case '\\':
			at++
		case '"':
			return at + 1, true
		}
	}
	return at, false
}

// skip is the place behind the value that begins at `at`, by its brackets and texts alone.
func skip(l []byte, at int) (int, bool) {
	depth := 0
	for at < len(l) {
		switch l[at] {
		case '"':
			end, ok := skipText(l, at)
			if !ok {
				return at, false
			}
			if at = end; depth == 0 {
				return at, true
			}
			continue
		case '{', '[':
			depth++
		case '}', ']':
			if depth == 0 {
				return at, true
			}
			if depth--; depth == 0 {
				return at + 1, true
			}
		case ',', ' ', '\t', '\r', '\n':
			if depth == 0 {
				return at, true
			}
		}
		at++
	}
	return at, depth == 0
}
