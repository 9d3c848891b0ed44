package desk

import (
	"os/exec"
	"path/filepath"
	"testing"
)

// TestTypes has TypeScript check the page's modules, where it is installed.
func TestTypes(t *testing.T) {
	tsc, err := exec.LookPath("tsc")
	if err != nil {
		t.Skip("there is no tsc: types of the page's modules aren't checked")
	}
	modules, err := filepath.Glob("files/*.js")
	if err != nil || len(modules) == 0 {
		t.Fatal("there are no modules", err)
	}
	words := []string{"--noEmit", "--allowJs", "--checkJs", "--strict", "--target", "es2022", "--module", "es2022",
		"--moduleResolution", "node", "--lib", "es2022,dom,dom.iterable", "types.d.ts"}
	if told, err := exec.Command(tsc, append(words, modules...)...).CombinedOutput(); err != nil {
		t.Errorf("%v:\n%s", err, told)
	}
}
