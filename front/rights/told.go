package rights

import (
	"encoding/json"
	"strings"

	"review-front/profile"
)

// reading says as what the program takes a text: two that it takes as one are told as one.
type reading func(text string) string

// asWritten is the reading of a text of which each byte counts.
func asWritten(text string) string { return text }

// read has the keys of a line that policies are told, with how the program reads what stands there. The first of them
// that is there is the resource's id, unless it is one of those behind `rule`.
var read = []struct {
	key string
	reading
}{
	{"id", asWritten}, {"entity", asWritten}, {"name", asWritten}, {"policy", asWritten}, {"resource", asWritten},
	{"person", asWritten}, {"action", asWritten}, {"category", categoryName}, {"attribute", asWritten},
	{"kind", asWritten}, {"version", plainVersion}, {"rule", asWritten},
	{"type", profile.TypeOf}, {"issuer", asWritten}, {"list", asWritten}, {"day", withoutZone}, {"moment", withoutZone},
}

// naming is how many of these may be the resource's id.
const naming = 12

// resource is what a line says: its keys that are texts, the kind, id and version of its document, and its module.
func resource(command string, members map[string]json.RawMessage) []attribute {
	texts := documentIn(members["document"])
	if texts == nil {
		texts = documentIn(members["reference"])
	}
	if texts == nil {
		texts = map[string]string{}
	}
	for _, one := range read {
		if text, is := textOf(members[one.key]); is && text != "" {
			texts[one.key] = one.reading(text)
		}
	}
	about := []attribute{{resourceID, command}}
	for at, one := range read {
		text := texts[one.key]
		if text == "" {
			continue
		}
		if len(about) == 1 && at < naming {
			about[0].Value = text
		}
		about = append(about, attribute{one.key, text})
	}
	module := 0
	_ = json.Unmarshal(members["module"], &module)
	return append(about, attribute{"module", module})
}

// documents has the key that tells a kind of document, or a reference to one, and at which key its id stands.
var documents = map[string]struct{ kind, id string }{
	"Policy": {"Policy", "PolicyId"}, "PolicySet": {"PolicySet", "PolicySetId"},
	"PolicyIdReference": {"Policy", "Id"}, "PolicySetIdReference": {"PolicySet", "Id"},
}

// documentIn is what a document, or a reference, says: its kind, id and version. It is nil where there is none. As the
// program does it takes the last of several keys that are equal, whatever stands at those before.
func documentIn(written json.RawMessage) map[string]string {
	var outer map[string]json.RawMessage
	if json.Unmarshal(written, &outer) != nil || len(outer) != 1 {
		return nil
	}
	for key, inner := range outer {
		known, is := documents[key]
		var members map[string]json.RawMessage
		if !is || json.Unmarshal(inner, &members) != nil {
			return nil
		}
		id, _ := textOf(members[known.id])
		version, _ := textOf(members["Version"])
		return map[string]string{"kind": known.kind, "id": id, "version": plainVersion(version)}
	}
	return nil
}

// textOf is the text that JSON is, if it is one.
func textOf(written json.RawMessage) (string, bool) {
	var text *string
	if json.Unmarshal(written, &text) != nil || text == nil {
		return "", false
	}
	return *text, true
}

// categoryName is the short name of a category that has one, and may be named by its URI too.
func categoryName(category string) string {
	for _, name := range []string{"AccessSubject", "Action", "Resource"} {
		if category == profile.CategoryOf(name) {
			return name
		}
	}
	return category
}

// plainVersion is a version, or a pattern of versions, without the leading zeros of its numbers.
func plainVersion(version string) string {
	numbers := strings.Split(version, ".")
	for at, number := range numbers {
		if plain := strings.TrimLeft(number, "0"); plain != "" && strings.Trim(plain, "0123456789") == "" {
			numbers[at] = plain
		} else if plain == "" && number != "" {
			numbers[at] = "0"
		}
	}
	return strings.Join(numbers, ".")
}

// withoutZone is a day or a moment without the `Z` that may stand behind it.
func withoutZone(text string) string { return strings.TrimSuffix(text, "Z") }
