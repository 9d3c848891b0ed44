package line

import (
	"testing"

	"review-front/commands"
)

// short has the questions whose replies are shorter than the table and all that is held.
var short = map[string]bool{
	"cell": true, "ask": true, "counts": true, "can": true, "who": true, "work": true, "format": true, "state": true,
	"explain": true, "limits": true,
}

// marks has the questions that rest on marks.
var marks = map[string]bool{"notices": true, "changes": true}

// TestKinds compares what the front knows of commands with the program's table: all changes are edits, and nothing else
// is; what is read of a line with the command's word is its kind.
func TestKinds(t *testing.T) {
	table := commands.All(t)
	for word, command := range table {
		l := `{"do":"` + word + `"}`
		if kinds[word] == Changes {
			l = `{"do":"` + word + `","since":0}`
		}
		kind, _ := Read([]byte(l))
		if (command.Kind == "change") != (kind == Edit) || (command.Kind == "mark") != (kind == Mark) {
			t.Errorf("%s is a %s, and read as %d", word, command.Kind, kind)
		}
		if command.Kind == "question" && !marks[word] && short[word] == (kind == Report) {
			t.Errorf("%s is short or a report, and read as %d", word, kind)
		}
	}
	for word := range kinds {
		if _, there := table[word]; !there {
			t.Errorf("the program has no command %s", word)
		}
	}
	for word := range marks {
		if kind := kinds[word]; table[word].Kind != "question" || kind != Notices && kind != Changes {
			t.Errorf("%s is %v, and %d", word, table[word], kind)
		}
	}
}
