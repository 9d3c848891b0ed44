package web

import (
	"encoding/json"
	"strings"
	"testing"
)

// TestDistance compares how far texts are from each other.
func TestDistance(t *testing.T) {
	for _, c := range []struct {
		a, b string
		away int
	}{
		{"", "", 0}, {"a", "", 1}, {"", "ab", 2}, {"records", "recrods", 2}, {"records", "record", 1},
		{"ward", "wards", 1}, {"kitten", "sitting", 3}, {"äb", "ab", 1},
	} {
		if away := distance([]rune(c.a), []rune(c.b)); away != c.away {
			t.Errorf("%q and %q are %d apart", c.a, c.b, away)
		}
	}
}

// TestNearest compares which ids are near to one.
func TestNearest(t *testing.T) {
	among := map[string]bool{"records": true, "record": true, "recordings": true, "wards": true, "recoords": true}
	for id, wanted := range map[string]string{
		"recods": `"records" "recoords" "record"`,
		"x":      "",
		"wrds":   `"wards"`,
	} {
		if near := strings.Join(nearest(id, among), " "); near != wanted {
			t.Errorf("near to %q are %s", id, near)
		}
	}
}

// TestElementIDs reads the ids of a document with elements within it.
func TestElementIDs(t *testing.T) {
	var one element
	const document = `{"PolicySet":{"PolicySetId":"top","Children":[{"Policy":{"PolicyId":"p"}},
		{"PolicyIdReference":{"Id":"elsewhere"}},
		{"PolicySet":{"PolicySetId":"s","Children":[{"Policy":{"PolicyId":"q"}}]}}]}}`
	if err := json.Unmarshal([]byte(document), &one); err != nil {
		t.Fatal(err)
	}
	found := map[string]bool{}
	one.ids(found)
	if len(found) != 4 || !found["top"] || !found["p"] || !found["s"] || !found["q"] {
		t.Errorf("found %v", found)
	}
}
