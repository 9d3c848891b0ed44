package main

import (
	"encoding/json"
	"fmt"
	"net/http"
	"path/filepath"
	"strings"
	"testing"

	"review-front/frame"
)

// TestPastRoles asks of the past by users of several roles: it needs `audit`, and with `at` the role of the question,
// too.
func TestPastRoles(t *testing.T) {
	f := begin(t, t.TempDir(), "--access", accessFile(t, entry("reader", "read"), entry("auditor", "audit"),
		entry("both", "read", "audit"), entry("editor", "edit")))
	got := f.as(t, "editor", http.MethodPost, "/lines", `{"do":"person.add","name":"ann"}`)
	if got.status != http.StatusOK {
		t.Fatalf("an edit is answered %+v", got)
	}
	for path, may := range map[string]string{
		"/edits": "auditor both", "/head": "auditor both", "/changes?since=0": "auditor both",
		"/changes?since=0&by=edit": "auditor both", "/changes?since=2026-01-01": "auditor both", "/counts?at=1": "both",
		"/counts": "reader both",
	} {
		for _, name := range []string{"reader", "auditor", "both", "editor"} {
			want := http.StatusForbidden
			if strings.Contains(may, name) {
				want = http.StatusOK
			}
			if got := f.as(t, name, http.MethodGet, path, ""); got.status != want {
				t.Errorf("%s asks %s, and is answered %+v", name, path, got)
			}
		}
	}
}

// aged has the newest snapshot of a folder be one of some days before.
func aged(t *testing.T, path, made string) {
	t.Helper()
	f := &forger{t: t, path: path}
	names := f.files("snapshot-")
	name := names[len(names)-1]
	records := f.read(name)
	records[0] = f.head(records[0], func(head map[string]json.RawMessage) {
		head["time"] = json.RawMessage(fmt.Sprintf("%q", made))
	})
	var content []byte
	for _, record := range records {
		content = frame.Append(content, record)
	}
	f.put(name, content)
}

// TestDaily makes a snapshot by the first edit of a day, and keeps one of each day.
func TestDaily(t *testing.T) {
	path := t.TempDir()
	words := []string{"--keep-daily", "100000", "--snapshot-every", "3"}
	var days []string
	for day := 1; day <= 4; day++ {
		f := begin(t, path, words...)
		f.accept(fmt.Sprintf(`{"do":"person.add","name":"person-%d"}`, day))
		f.snapshots(1)
		f.stop()
		aged(t, path, fmt.Sprintf("2026-01-%02dT09:00:00Z", day))
		days = append(days, fmt.Sprintf("snapshot-%020d", day))
	}
	f := begin(t, path, words...)
	for i := 0; i < 9; i++ {
		f.accept(fmt.Sprintf(`{"do":"action.add","name":"action-%d"}`, i))
		f.snapshots(1 + i/3)
	}
	f.stop()
	if again, sound := verified(path); !sound {
		t.Error(again)
	}
	names, err := filepath.Glob(filepath.Join(path, "snapshot-*"))
	if err != nil || len(names) != len(days)+2 {
		t.Errorf("%d snapshots are kept: %v", len(names), names)
	}
	for _, day := range days {
		if !strings.Contains(strings.Join(names, " "), day) {
			t.Errorf("%s isn't kept", day)
		}
	}
}
