package undo

import "strings"

// Names are the names of each list, in their order.
type Names map[string][]string

// Add takes an edit that was made. Of one that drops a name it gives which names stood before that, and of all others
// false.
func (n Names) Add(line []byte) (Dropped, bool) {
	e, _, err := read(line)
	list, does, _ := strings.Cut(e.text("do"), ".")
	name := e.text("name")
	if err != nil || does != "add" && does != "drop" || name == "" {
		return Dropped{}, false
	}
	if does == "add" {
		n[list] = append(n[list], name)
		return Dropped{}, false
	}
	for i, other := range n[list] {
		if other == name {
			before := append([]string(nil), n[list][:i]...)
			n[list] = append(before[:i:i], n[list][i+1:]...)
			return Dropped{List: list, Name: name, before: before}, true
		}
	}
	return Dropped{}, false
}

// Dropped is a name that was dropped, of persons, actions or resources.
type Dropped struct {
	List, Name string
	before     []string
}

// Moves says whether the name, added to a list as it is now, doesn't stand where it stood: a name is added at the end.
func (d Dropped) Moves(now Names) bool {
	before := map[string]bool{}
	for _, name := range d.before {
		before[name] = true
	}
	for _, name := range now[d.List] {
		if !before[name] {
			return true
		}
	}
	return false
}
