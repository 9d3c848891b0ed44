package web

import (
	"bytes"
	"strings"
	"testing"

	"review-front/notices"
)

// TestWanted cuts events to what is wanted, each notice as it was written.
func TestWanted(t *testing.T) {
	notice := func(person, action, resource string) string {
		return `{"action":"` + action + `","after":"Permit","before":null,"person":"` + person + `","resource":"` + resource + `"}`
	}
	all := []string{notice("ann", "read", "plan-1"), notice("a\\u006en", "write", "plan-2"), notice("ben", "read", "map")}
	event := notices.Event{Kind: notices.Told, Serial: 7, Data: []byte(`{"notices":[` + strings.Join(all, ",") + `]}`)}
	for query, want := range map[string][]string{
		"":                                  all,
		"persons=ann":                       all[:2],
		"persons=ben&persons=eve":           all[2:],
		"persons=ann&actions=write":         all[1:2],
		"resources=plan-*":                  all[:2],
		"resources=*&actions=read":          {all[0], all[2]},
		"persons=a*&persons=ben":            all,
		"persons=a":                         nil,
		"actions=read&resources=plan-2*":    nil,
		"persons=ann;x":                     nil,
		"resources=plan-1&resources=map%2A": {all[0], all[2]},
	} {
		hears, err := wantedOf(query)
		if err != nil {
			t.Fatal(query, err)
		}
		var said bytes.Buffer
		if err := sendEvent(&said, event, hears); err != nil {
			t.Fatal(query, err)
		}
		text := "event: notices\nid: 7\ndata: {\"notices\":[" + strings.Join(want, ",") + "]}\n\n"
		if want == nil {
			text = "id: 7\n\n"
		}
		if said.String() != text {
			t.Errorf("%s: it is told %q", query, said.String())
		}
	}
	for _, query := range []string{"person=ann", "persons=%ff", "persons=%", "x"} {
		if _, err := wantedOf(query); err == nil {
			t.Errorf("%s is read", query)
		}
	}
}
