package check

import (
	"net/url"
	"strings"
	"unicode"
	"unicode/utf8"
)

// seen is a path that every server reads alike: its parts, without escapes.
type seen struct {
	parts []string
	slash bool   // it ends with a slash behind its last part
	query string // as it was sent
}

// whole is the path without escapes.
func (s seen) whole() string {
	text := "/" + strings.Join(s.parts, "/")
	if s.slash {
		text += "/"
	}
	return text
}

const (
	// plain are the signs beside letters and digits that a path has as they are, and never as escapes.
	plain = "-._~"
	// either are those that a path has in either way, and that mean the same in both.
	either = "!$&'()*,=:@"
	// escaped are the signs that a path has as escapes alone, and that divide nothing anywhere.
	escaped = " \"<>[]^`{|}+"
)

func isLetter(c byte) bool {
	return c >= 'a' && c <= 'z' || c >= 'A' && c <= 'Z' || c >= '0' && c <= '9'
}

// read reads what a request asks for, or says why servers may read it in several ways: whoever decides would look at
// another path than whoever answers. So nothing is put right here, it is refused.
func read(target string) (seen, string) {
	path, query, _ := strings.Cut(target, "?")
	s := seen{query: query}
	for i := 0; i < len(target); i++ {
		if c := target[i]; c <= ' ' || c >= 0x7f || c == '#' || c == '\\' {
			return s, "the path has a sign that has to be an escape"
		}
	}
	if !strings.HasPrefix(path, "/") {
		return s, "the path doesn't begin with a slash"
	}
	s.parts = strings.Split(path[1:], "/")
	last := len(s.parts) - 1
	if s.parts[last] == "" {
		s.parts, s.slash = s.parts[:last], last > 0
	}
	for i, part := range s.parts {
		text, wrong := unescaped(part)
		if wrong == "" {
			wrong = strange(text)
		}
		if wrong != "" {
			return s, wrong
		}
		s.parts[i] = text
	}
	return s, overridden(query)
}

// unescaped is a part without its escapes, or what is wrong with these.
func unescaped(part string) (text, wrong string) {
	var all strings.Builder
	for i := 0; i < len(part); i++ {
		c := part[i]
		if c != '%' {
			if !isLetter(c) && strings.IndexByte(plain+either, c) < 0 {
				return "", "the path has a sign that has to be an escape"
			}
			all.WriteByte(c)
			continue
		}
		one, err := url.PathUnescape(part[i:min(i+3, len(part))])
		if err != nil {
			return "", "the path has an escape that is none"
		}
		if c := one[0]; c < utf8.RuneSelf && strings.IndexByte(either+escaped, c) < 0 {
			return "", "the path has an escape of a sign that divides paths, or needs none"
		}
		all.WriteString(one)
		i += 2
	}
	return all.String(), ""
}

func min(a, b int) int {
	if a < b {
		return a
	}
	return b
}

// strange says what is wrong with a part that some server leaves out, shortens or takes for another.
func strange(part string) string {
	if part == "" {
		return "the path has two slashes in a row"
	}
	if !utf8.ValidString(part) {
		return "the path isn't UTF-8"
	}
	for _, r := range part {
		if !unicode.IsPrint(r) || r > 0xff00 && r < 0xff5f {
			return "the path has a sign that isn't seen, or looks like another"
		}
	}
	if strings.HasSuffix(part, ".") {
		return "a part of the path is of dots, or ends with one"
	}
	if strings.TrimSpace(part) != part {
		return "a part of the path begins or ends with a blank"
	}
	return ""
}

// doubtful says whether a part has a sign beside those of ASCII that is in upper case, or becomes one of ASCII: which
// servers take it for the same as another isn't known.
func doubtful(part string) bool {
	return strings.IndexFunc(part, func(r rune) bool {
		return r >= utf8.RuneSelf && (unicode.ToLower(r) != r || unicode.ToUpper(r) < utf8.RuneSelf)
	}) >= 0
}

// overridden says that a query names another method than the request has, as some servers take it.
func overridden(query string) string {
	for _, pair := range strings.FieldsFunc(query, func(r rune) bool { return r == '&' || r == ';' }) {
		written, _, _ := strings.Cut(pair, "=")
		key, err := url.QueryUnescape(written)
		if err != nil {
			return "the query has an escape that is none"
		}
		if strings.EqualFold(strings.TrimSpace(key), "_method") {
			return "the query names another method"
		}
	}
	return ""
}
