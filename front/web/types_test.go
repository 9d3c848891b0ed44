package web

import "testing"

// TestResponseType sees in which type a response is given, by what `Accept` says.
func TestResponseType(t *testing.T) {
	const json, xml = profileType, xmlType
	for _, one := range []struct {
		given  []string
		to     string
		wanted string
	}{
		{nil, json, json},
		{nil, xml, xml},
		{[]string{"*/*"}, xml, xml},
		{[]string{json}, json, json},
		{[]string{json}, xml, json},
		{[]string{xml}, json, xml},
		{[]string{"application/json"}, json, json},
		{[]string{"application/xml"}, json, xml},
		{[]string{"application/*;q=0.1"}, json, json},
		{[]string{"text/html, */*; q=0.8"}, json, json},
		{[]string{"text/html"}, json, ""},
		{[]string{"*/*;q=0"}, json, ""},
		{[]string{json + ";q=0"}, json, ""},
		{[]string{json + ";q=0.000, */*"}, json, xml},
		{[]string{"*/*, " + json + "; q=0"}, json, xml},
		{[]string{"*/*;q=0, " + json}, xml, json},
		{[]string{"application/json;q=0, application/*"}, json, xml},
		{[]string{"application/*;q=0, */*"}, json, ""},
		{[]string{xml + ", " + json + ";q=0.5"}, json, xml},
		{[]string{xml + ";q=0.5, " + json}, xml, json},
		{[]string{"text/html", "*/*"}, json, json},
		{[]string{"*/*", "application/*;q=0"}, json, ""},
	} {
		if got := responseType(one.given, one.to); got != one.wanted {
			t.Errorf("%q to %s is answered by %q", one.given, one.to, got)
		}
	}
}
