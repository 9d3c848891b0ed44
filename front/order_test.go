package main

import (
	"fmt"
	"net/http"
	"os"
	"path/filepath"
	"regexp"
	"strings"
	"testing"
)

// order reads what a front did to its folder, call by call as strace tells it, and sees that nothing is relied on
// before it is on disk.
type order struct {
	t       *testing.T
	folder  string
	dirty   map[string]bool // files of which something isn't on disk, and those whose name isn't
	unnamed map[string]bool
	last    string // the journal that was written last
	acks    int
	marks   int            // how many marks were answered
	renamed map[string]int // by the kind of file
}

// call is a system call with its arguments, as strace writes it behind the number of the thread.
var call = regexp.MustCompile(`^\d+ +(\w+)\((.*)$`)

// strings and paths in the arguments of a call.
var (
	fileOf  = regexp.MustCompile(`^\d+<([^>]*)>`)
	renames = regexp.MustCompile(`"([^"]*)".*"([^"]*)"`)
)

// whole puts a call that others came between into one line, at its end; of a write to a client, at its beginning.
func whole(trace string) []string {
	begun := map[string]string{}
	var all []string
	for _, l := range strings.Split(trace, "\n") {
		thread, rest, _ := strings.Cut(l, " ")
		rest = strings.TrimSpace(rest)
		switch {
		case strings.HasSuffix(rest, "<unfinished ...>") && strings.Contains(rest, "<socket:"):
			all = append(all, thread+" "+rest)
		case strings.HasSuffix(rest, "<unfinished ...>"):
			begun[thread] = strings.TrimSuffix(rest, "<unfinished ...>")
		case strings.HasPrefix(rest, "<... "):
			_, end, _ := strings.Cut(rest, "resumed>")
			if first, there := begun[thread]; there {
				all = append(all, thread+" "+first+end)
				delete(begun, thread)
			}
		default:
			all = append(all, l)
		}
	}
	return all
}

// kindOf is a file's name without its number.
func kindOf(path string) string {
	kind, _, _ := strings.Cut(filepath.Base(path), "-")
	return kind
}

// see looks at a call.
func (o *order) see(l string) {
	found := call.FindStringSubmatch(l)
	if found == nil {
		return
	}
	file := ""
	if path := fileOf.FindStringSubmatch(found[2]); path != nil {
		file = path[1]
	}
	inside := filepath.Dir(file) == o.folder
	switch name := found[1]; {
	case strings.HasPrefix(name, "rename"):
		o.rename(l, renames.FindStringSubmatch(found[2]))
	case name == "fsync" && file == o.folder:
		o.unnamed = map[string]bool{}
	case name == "fsync":
		delete(o.dirty, file)
	case strings.Contains(name, "write") && inside:
		// Of the marks those of the program needn't be on disk.
		if kindOf(file) != "marks" || strings.Contains(found[2], `\"mark\":{`) {
			o.dirty[file] = true
		}
		if kindOf(file) == "journal" && !strings.HasSuffix(file, ".aside") {
			o.last = file
		}
	case name == "write" && strings.HasPrefix(file, "socket:") && strings.Contains(found[2], `\"changes\"`):
		o.acks++
		if o.dirty[o.last] || o.unnamed[o.last] {
			o.t.Errorf("an edit is acknowledged before %s is on disk: %s", o.last, l)
		}
		if keys := filepath.Join(o.folder, "keys"); o.dirty[keys] || o.unnamed[keys] {
			o.t.Errorf("an edit is acknowledged before its key is on disk: %s", l)
		}
	case name == "write" && strings.HasPrefix(file, "socket:") && strings.Contains(found[2], `{\"mark\":`):
		o.marks++
		if marks := filepath.Join(o.folder, "marks"); o.dirty[marks] || o.unnamed[marks] {
			o.t.Errorf("a mark is answered before it is on disk: %s", l)
		}
	}
}

// rename looks at a file that gets its name, or its place.
func (o *order) rename(l string, names []string) {
	if names == nil || filepath.Dir(names[2]) != o.folder {
		return
	}
	if o.dirty[names[1]] {
		o.t.Errorf("a file has its name before it is on disk: %s", l)
	}
	o.unnamed[names[2]] = true
	o.renamed[kindOf(names[2])]++
}

// TestOrder edits, with and without keys, and marks, while snapshots are made and journals begun: no reply leaves
// before the edit or the mark is on disk, and the name of its journal, and no file gets its name before that.
func TestOrder(t *testing.T) {
	theProgram(t)
	path, trace := t.TempDir(), filepath.Join(t.TempDir(), "trace")
	if os.Getenv("FRONT_UNTRACED") != "" {
		t.Skip("strace can't look at processes")
	}
	// With -D the front is the process that was started, and strace one that it doesn't know.
	const calls = "write,pwrite64,pwritev,writev,fsync,rename,renameat,renameat2"
	strace := fmt.Sprintf(`exec strace -D -f -y -qq -s 400 -e trace=%s -o %s "$0" "$@"`, calls, trace)
	f := launchBy(t, strace, path, "--snapshot-every", "3")
	f.await()
	session := f.session()
	for i := 0; i < 6; i++ {
		if status, said := f.post(session+"/mark", ""); status != http.StatusOK {
			t.Fatalf("a mark is answered %d %s", status, said)
		}
		f.accept(fmt.Sprintf(`{"do":"person.add","name":"person-%d"}`, i))
		status, said := f.keyed(fmt.Sprint(i), fmt.Sprintf(`{"do":"action.add","name":"action-%d"}`, i))
		if status != http.StatusOK {
			t.Fatalf("an edit is answered %d %s", status, said)
		}
	}
	f.snapshots(2)
	if status := f.stop(); status != 0 {
		t.Fatalf("the front ends with %d:\n%s", status, f.log())
	}
	content, err := os.ReadFile(trace)
	if err != nil {
		t.Fatal(err)
	}
	o := &order{t: t, folder: path, dirty: map[string]bool{}, unnamed: map[string]bool{}, renamed: map[string]int{}}
	for _, l := range whole(string(content)) {
		o.see(l)
	}
	if o.acks != 12 || o.marks != 6 || o.renamed["journal"] < 2 || o.renamed["snapshot"] < 2 || o.renamed["keys"] != 1 {
		t.Errorf("%d replies left, and %d to marks, and %v got names", o.acks, o.marks, o.renamed)
	}
	if len(o.dirty)+len(o.unnamed) > 0 {
		t.Errorf("%v and the names %v aren't on disk at the end", o.dirty, o.unnamed)
	}
	if t.Failed() {
		t.Logf("%s", content)
	}
}
