package provision

import (
	"strings"
	"testing"
)

// TestWrong reads files that say something wrong, each of which is told.
func TestWrong(t *testing.T) {
	whole := func(name, attributes, more string) string {
		return `{"source":"s","people":{"name":` + name + `,"attributes":{` + attributes + `}}` + more + `}`
	}
	for _, one := range [][2]string{
		{`{`, "EOF"}, {`{"people":{}}`, "from"}, {`{"source":"s","else":1}`, "unknown field"},
		{whole(`"userName"`, ``, `} {`), "behind the object"},
		{whole(`"nothing"`, ``, ``), "no such attribute"}, {whole(`"name"`, ``, ``), "no one value"},
		{whole(`"userName"`, `"a":"name.nothing"`, ``), "no such attribute"},
		{whole(`"userName"`, `"a":"emails[type eq"`, ``), "isn't closed"},
		{whole(`"userName"`, `"a":"emails[none eq 1].value"`, ``), "no such attribute"},
		{whole(`"userName"`, `"a":"title[x eq 1]"`, ``), "no parts"},
		{whole(`"userName"`, `"a":{"from":"title","type":"real"}`, ``), "no type"},
		{whole(`"userName"`, `"a":{"from":"title","optional":true}`, ``), "unknown field"},
		{whole(`"userName"`, `"urn:review:source:x":"title"`, ``), "kept for marks"},
		{whole(`{"from":"userName","case":"none"}`, ``, ``), "lower or upper"},
		{whole(`"userName"`, ``, `,"module":9`), "module 9"},
		{whole(`"userName"`, ``, `,"extensions":[{"id":"x"}]`), "urn:"},
		{whole(`"userName"`, ``, `,"extensions":[{"id":"urn:x","attributes":[{"name":"a b"}]}]`), "no name"},
		{whole(`"userName"`, ``, `,"extensions":[{"id":"urn:x","attributes":[{"name":"a"},{"name":"A"}]}]`), "no name"},
		{whole(`"userName"`, ``, `,"extensions":[{"id":"urn:x","attributes":[{"name":"a","type":"t"}]}]`), "type"},
		{whole(`"userName"`, ``, `,"extensions":[{"id":"urn:x","attributes":[{"name":"a","type":"complex"}]}]`), "complex"},
	} {
		if _, err := Parse([]byte(one[0])); err == nil || !strings.Contains(err.Error(), one[1]) {
			t.Errorf("%s: %v, and not %q", one[0], err, one[1])
		}
	}
	right := whole(`"userName"`, `"a":"emails[type eq \"work\"].value","b":{"from":"manager.value","named":true},
		"c":"department"`, ``)
	if m, err := Parse([]byte(right)); err != nil || !m.Named() {
		t.Error(err)
	}
}
