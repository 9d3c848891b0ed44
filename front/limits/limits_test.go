package limits

import (
	"flag"
	"strings"
	"testing"
)

// TestLimits reads limits from words, and writes those that aren't standard for a program.
func TestLimits(t *testing.T) {
	for _, it := range []struct {
		words, wrong string
		holds        bool
	}{
		{"", "", true},
		{"--people 400 --cells 576000", "", true},
		{"--people 65536 --actions 1024 --resources 65536 --cells 16777216 --documents 65536", "", true},
		{"--people 400 --documents 1000", "", false},
		{"--people 255", "", false},
		{"--people 0", "--people is 1 to 65536", false},
		{"--cells 16777217", "--cells is 1 to 16777216", true},
	} {
		var l Limits
		set := flag.NewFlagSet("limits", flag.ContinueOnError)
		l.Name(set.IntVar)
		if err := set.Parse(strings.Fields(it.words)); err != nil {
			t.Fatal(err)
		}
		got, wrong, holds := strings.Join(l.Words(), " "), l.Wrong(), l.Hold(Standard)
		if got != it.words || wrong != it.wrong || holds != it.holds {
			t.Errorf("%s: %s, %q, %v", it.words, got, wrong, holds)
		}
	}
}
