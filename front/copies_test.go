package main

import (
	"bytes"
	"fmt"
	"path/filepath"
	"strings"
	"testing"
)

// saying runs a command that reads a folder, and gives what it says.
func saying(words ...string) (status int, said, faults string) {
	var to, other bytes.Buffer
	status = offline[words[0]](words[1:], &to, &other)
	return status, to.String(), other.String()
}

// TestRestore makes a folder that ends at each of some edits of the clinic: a front over it has the table of that time,
// and goes on.
func TestRestore(t *testing.T) {
	path := t.TempDir()
	f := begin(t, path, "--snapshot-every", "20")
	lines := clinic(t)
	dumps := map[int]string{}
	for i, l := range lines {
		f.accept(l)
		if i == 29 || i == 66 {
			dumps[i+1] = f.must("/dump")
		}
	}
	if status := f.stop(); status != 0 {
		t.Fatalf("the front ends with %d", status)
	}
	for serial, dump := range dumps {
		out := filepath.Join(t.TempDir(), "out")
		status, said, faults := saying("restore", "--journal", path, "--to", fmt.Sprint(serial), out)
		if status != 0 || !strings.Contains(said, fmt.Sprintf("the state of serial %d", serial)) {
			t.Fatalf("it ends with %d: %s%s", status, said, faults)
		}
		if again, _, _ := saying("restore", "--journal", path, "--to", "1", out); again != 1 {
			t.Errorf("over a folder that is there it ends with %d", again)
		}
		f := begin(t, out)
		if got := f.must("/dump"); got != dump {
			t.Errorf("at serial %d the dump is %s", serial, got)
		}
		f.accept(lines[serial])
		f.kill()
	}
	if status, said, _ := saying("verify", "--journal", path); status != 0 || !strings.Contains(said, "up to 69") {
		t.Errorf("it ends with %d: %s", status, said)
	}
	for end, want := range map[string]string{
		"69": "", "70": "70 is beyond the end: the journals end at serial 69",
		"2020-01-01": "", "9999-01-01": "still to come",
	} {
		status, _, faults := saying("restore", "--journal", path, "--to", end, filepath.Join(t.TempDir(), "out"))
		if status != 0 || !strings.Contains(faults, want) || want == "" && faults != "" {
			t.Errorf("up to %s it ends with %d: %s", end, status, faults)
		}
	}
}

// TestVerifyNothing looks at a folder in which nothing is kept: that isn't told as sound.
func TestVerifyNothing(t *testing.T) {
	status, said, _ := saying("verify", "--journal", t.TempDir())
	if status != 1 || !strings.Contains(said, "nothing to look at") {
		t.Errorf("it ends with %d: %s", status, said)
	}
}

// TestUndo takes each edit of the clinic back at once, and sees that the dump is that of before.
func TestUndo(t *testing.T) {
	path := t.TempDir()
	f := begin(t, path)
	lines := append(clinic(t), `{"do":"moment.set","moment":"2025-03-01T09:00:00Z"}`,
		`{"do":"person.drop","name":"hana"}`, `{"do":"person.drop","name":"emil"}`,
		`{"do":"attr.set","category":"urn:oasis:names:tc:xacml:1.0:subject-category:access-subject","entity":"ada",`+
			`"attribute":"role","type":"http://www.w3.org/2001/XMLSchema#string","values":["nurse"]}`,
		`{"do":"policy.withdraw","kind":"Policy","id":"office","version":"1"}`, `{"do":"root.set","reference":null}`)
	serial := 0
	for _, l := range lines {
		before := f.must("/dump")
		f.accept(l)
		serial++
		status, back, faults := saying("undo", "--journal", path, fmt.Sprint(serial))
		moves := strings.Contains(l, `drop","name":"emil"`) // hana is the last
		if status != 0 || (faults != "") != moves || moves && !strings.Contains(faults, `person "emil" is added at the end`) {
			t.Fatalf("taking back %s ends with %d: %s", l, status, faults)
		}
		f.accept(strings.TrimSuffix(back, "\n"))
		if after := f.must("/dump"); after != before && !strings.Contains(l, "person.drop") {
			t.Errorf("%s is taken back by %s, and the dump is\n%s\nand not\n%s", l, back, after, before)
		}
		f.accept(l)
		serial += 2
	}
	f.accept(`{"do":"person.add","name":"zoe"}`, `{"do":"person.drop","name":"zoe"}`)
	if status, back, faults := saying("undo", "--journal", path, fmt.Sprint(serial+2)); status != 0 || faults != "" {
		t.Errorf("taking back who was the last ends with %d: %s%s", status, back, faults)
	}
	if _, _, faults := saying("undo", "--journal", path, "1"); !strings.Contains(faults, "serial 2 set the same") {
		t.Errorf("of a later edit it is said %s", faults)
	}
	for _, wrong := range []string{"0", "x", "9999"} {
		if status, _, _ := saying("undo", "--journal", path, wrong); status == 0 {
			t.Errorf("undo %s ends with 0", wrong)
		}
	}
}
