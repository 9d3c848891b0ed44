package main

import (
	"bytes"
	"fmt"
	"net/http"
	"strings"
	"testing"
	"time"
)

// sentBy sends lines with some fields of the head, and gives the status and the body.
func (f *front) sentBy(head http.Header, path, lines string) (int, string) {
	f.t.Helper()
	request, err := http.NewRequest(http.MethodPost, f.url(path), strings.NewReader(lines))
	if err != nil {
		f.t.Fatal(err)
	}
	request.Header = head
	answer, err := http.DefaultClient.Do(request)
	if err != nil {
		f.t.Fatal(err)
	}
	return bodyOf(f.t, answer)
}

// editBy sends a line as somebody whom the server before the front names.
func (f *front) editBy(by, l string) {
	f.t.Helper()
	if _, body := f.sentBy(http.Header{"X-User": {by}}, "/lines", l); !strings.HasPrefix(body, `{"changes":`) {
		f.t.Fatalf("%s is answered %s", l, body)
	}
}

// TestNobody lets the server before the front name nobody, or two: nothing is edited.
func TestNobody(t *testing.T) {
	f := begin(t, t.TempDir(), "--by-header", "X-User")
	session := f.session()
	for _, names := range [][]string{{""}, {"eve", "max"}} {
		for _, path := range []string{"/lines", session + "/lines", session + "/mark"} {
			if status, body := f.sentBy(http.Header{"X-User": names}, path, `{"do":"person.add","name":"ann"}`); status != 403 {
				t.Errorf("%s by %q is answered %d %s", path, names, status, body)
			}
		}
	}
	f.editBy("eve", `{"do":"person.add","name":"ann"}`)
}

// TestHistory tells who edited what, over several starts, while the front serves.
func TestHistory(t *testing.T) {
	path := t.TempDir()
	f := begin(t, path, "--by-header", "X-User", "--snapshot-every", "2")
	f.editBy("eve", `{"do":"person.add","name":"ann"}`)
	f.editBy("max", `{ "do" : "action.add", "name":"read" }`)
	f.editBy("eve", `{"do":"resource.add","name":"plan"}`)
	if status := f.stop(); status != 0 {
		t.Fatalf("the front ends with %d", status)
	}
	between := time.Now()
	f = begin(t, path, "--by-header", "X-User", "--snapshot-every", "2")
	f.editBy("eve", `{"do":"person.drop","name":"ann"}`)
	told := func(words ...string) string {
		var to, faults bytes.Buffer
		if status := history(append([]string{"--journal", path}, words...), &to, &faults); status != 0 {
			t.Fatalf("%v ends with %d: %s", words, status, faults.String())
		}
		return to.String()
	}
	if all := told(); strings.Count(all, "\n") != 4 || !strings.Contains(all, `"by":"max","serial":2,"changes":0,"line":{ "do" : "action.add", "name":"read" }}`) {
		t.Errorf("the history is\n%s", all)
	}
	if got := told("--by", "eve"); strings.Count(got, "\n") != 3 {
		t.Errorf("the history of eve is\n%s", got)
	}
	if got := told("--since", between.UTC().Format(time.RFC3339Nano), "--by", "eve"); strings.Count(got, "\n") != 1 || !strings.Contains(got, "drop") {
		t.Errorf("the later history of eve is\n%s", got)
	}
	if got := told("--until", between.UTC().Format("2006-01-02")); got != "" {
		t.Errorf("the history before today is\n%s", got)
	}
	var nothing bytes.Buffer
	if status := history([]string{"--journal", path, "--since", "soon"}, &nothing, &nothing); status != 2 {
		t.Errorf("a bad time ends with %d", status)
	}
}

// TestWords sees what is said of words that can't be used, and of help.
func TestWords(t *testing.T) {
	for words, want := range map[string]int{
		"--help":                              0,
		"":                                    2,
		"--program a":                         2,
		"--program a --journal b --nothing":   2,
		"--program a --journal b c":           2,
		"--program a --journal b --key c":     2,
		"--program a --journal b --clients c": 2,
		"--program a --journal b --queue 0":   2,
		"--program a --journal b --host=":     2,
		"--program a --journal b --by-header b --by-header-from c": 2,
		"--program a --journal b --policy-modules 5":               2,
	} {
		var said bytes.Buffer
		if _, status, ok := parse(strings.Fields(words), &said); ok || status != want || said.Len() == 0 {
			t.Errorf("%q gives %d: %s", words, status, said.String())
		}
	}
	var said bytes.Buffer
	_, _, _ = parse([]string{"--help"}, &said)
	for _, option := range []string{"program", "journal", "listen", "keep", "snapshot-every", "reads"} {
		if !strings.Contains(said.String(), fmt.Sprintf("-%s ", option)) {
			t.Errorf("help doesn't tell of --%s", option)
		}
	}
}
