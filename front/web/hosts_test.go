package web

import "testing"

// TestHostOf reads hosts as fields say them.
func TestHostOf(t *testing.T) {
	for written, want := range map[string]host{
		"localhost":           {"localhost", ""},
		"LOCALHOST.:8080":     {"localhost", "8080"},
		"127.0.0.1:80":        {"127.0.0.1", "80"},
		"[::1]":               {"::1", ""},
		"[::1]:8080":          {"::1", "8080"},
		"::1":                 {"::1", ""},
		"":                    {"", ""},
		":8080":               {"", "8080"},
		"localhost:":          {"localhost", ""},
		"localhost.evil":      {"localhost.evil", ""},
		"localhost:80@evil":   {"localhost:80@evil", ""},
		"[localhost].evil:80": {"[localhost].evil:80", ""},
	} {
		if got := hostOf(written); got != want {
			t.Errorf("%q is read as %v", written, got)
		}
	}
}
