// Package limits says how large a state the program may have.
package limits

import (
	"fmt"
	"strconv"
)

// Limits are the most names, cells and documents of a state.
type Limits struct {
	People    int `json:"people"`
	Actions   int `json:"actions"`
	Resources int `json:"resources"`
	Cells     int `json:"cells"`
	Documents int `json:"documents"`
}

// Standard are those of a program that is told none.
var Standard = Limits{People: 256, Actions: 32, Resources: 256, Cells: 65_536, Documents: 1_024}

// most are the largest that a program takes.
var most = Limits{People: 65_536, Actions: 1_024, Resources: 65_536, Cells: 16_777_216, Documents: 65_536}

// limit is one of them, with the word of its option.
type limit struct {
	word  string
	place *int
	usage string
}

// each lists them.
func (l *Limits) each() []limit {
	return []limit{
		{"people", &l.People, "how many people the table has at most"},
		{"actions", &l.Actions, "how many actions the table has at most"},
		{"resources", &l.Resources, "how many resources the table has at most"},
		{"cells", &l.Cells, "how many cells the table has at most"},
		{"documents", &l.Documents, "how many documents all modules have at most"},
	}
}

// Name gives each its option, and what it is without it.
func (l *Limits) Name(option func(place *int, word string, without int, usage string)) {
	standard := Standard.each()
	for i, it := range l.each() {
		option(it.place, it.word, *standard[i].place, it.usage)
	}
}

// Of is the limit of a word, or 0 where it is none.
func (l Limits) Of(word string) int {
	for _, it := range l.each() {
		if it.word == word {
			return *it.place
		}
	}
	return 0
}

// Most is the largest that a program takes of the limit of a word.
func Most(word string) int { return most.Of(word) }

// Wrong says which of them no program takes, or nothing.
func (l Limits) Wrong() string {
	greatest := most.each()
	for i, it := range l.each() {
		if most := *greatest[i].place; *it.place < 1 || *it.place > most {
			return fmt.Sprintf("--%s is 1 to %d", it.word, most)
		}
	}
	return ""
}

// Words are the words that tell a program those that aren't standard.
func (l Limits) Words() []string {
	var words []string
	standard := Standard.each()
	for i, it := range l.each() {
		if *it.place != *standard[i].place {
			words = append(words, "--"+it.word, strconv.Itoa(*it.place))
		}
	}
	return words
}

// Hold says whether what fits within others fits within these.
func (l Limits) Hold(others Limits) bool {
	these := l.each()
	for i, it := range others.each() {
		if *it.place > *these[i].place {
			return false
		}
	}
	return true
}

func (l Limits) String() string {
	return fmt.Sprintf("%d people, %d actions, %d resources, %d cells, %d documents",
		l.People, l.Actions, l.Resources, l.Cells, l.Documents)
}
