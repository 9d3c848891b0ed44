// Package commands reads the program's table of commands, for tests that compare the front's own tables with it.
package commands

import (
	"encoding/json"
	"os/exec"
	"testing"
)

// Command is a command as the program's definition has it.
type Command struct {
	Word string
	Kind string   // `change`, `question` or `mark`
	Keys []string // besides `do` and `session`
}

// All reads the table by the script that reads the definition, for a package in a folder of the front.
func All(t testing.TB) map[string]Command {
	t.Helper()
	return In(t, "../../tools")
}

// In reads the table by the script in a folder of tools.
func In(t testing.TB, tools string) map[string]Command {
	t.Helper()
	written, err := exec.Command(tools + "/pages/commands.py").Output()
	if err != nil {
		t.Fatalf("the table of commands: %v", err)
	}
	var table []Command
	if err := json.Unmarshal(written, &table); err != nil {
		t.Fatalf("the table of commands: %v", err)
	}
	all := map[string]Command{}
	for _, one := range table {
		all[one.Word] = one
	}
	return all
}
