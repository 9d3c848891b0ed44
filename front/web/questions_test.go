package web

import (
	"sort"
	"strings"
	"testing"

	"review-front/commands"
)

// elsewhere has the questions that have no path of their own among the questions.
var elsewhere = map[string]bool{"ask": true, "notices": true}

// unasked has the keys that a path leaves out: what is asked with them is asked otherwise.
var unasked = map[string]string{"explain": "request"}

// TestQuestions compares the paths of questions with the program's table: each asks a question by its word and keys,
// and each question has a path.
func TestQuestions(t *testing.T) {
	table := commands.All(t)
	paths := map[string]string{}
	for _, q := range questions {
		if command := table[q.do]; command.Kind != "question" {
			t.Errorf("%s asks %s, which is no question of the program", q.path, q.do)
		}
		var keys []string
		for _, key := range q.keys {
			keys = append(keys, key.name)
		}
		if key, there := unasked[q.do]; there {
			keys = append(keys, key)
		}
		sort.Strings(keys)
		if got, want := strings.Join(keys, " "), strings.Join(table[q.do].Keys, " "); got != want {
			t.Errorf("%s has the keys %s, and the question has %s", q.path, got, want)
		}
		if other, there := paths[q.do]; there {
			t.Errorf("%s and %s ask the same", other, q.path)
		}
		paths[q.do] = q.path
	}
	for word, command := range table {
		if command.Kind == "question" && paths[word] == "" && !elsewhere[word] {
			t.Errorf("no path asks %s", word)
		}
	}
}

// TestFlags compares what stands at a key that is true or false with what is asked by it.
func TestFlags(t *testing.T) {
	flag := key{"documents", flagOrNo}
	for _, c := range []struct {
		values  []string
		written string
		fault   string
	}{
		{nil, "", ""},
		{[]string{"true"}, "true", ""},
		{[]string{"false"}, "false", ""},
		{[]string{"1"}, "", "documents is neither true nor false"},
		{[]string{"true", "true"}, "", "documents stands more than once"},
	} {
		written, err := flag.write(c.values, c.values != nil)
		fault := ""
		if err != nil {
			fault = err.Error()
		}
		if written != c.written || fault != c.fault {
			t.Errorf("%q is written %q, and the fault is %q", c.values, written, fault)
		}
	}
}
