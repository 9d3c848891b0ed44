package main

import (
	"net"
	"path/filepath"
	"testing"
	"time"
)

// TestNotify starts a front as systemd does, which is told once there is a state: questions are answered then.
func TestNotify(t *testing.T) {
	folder := t.TempDir()
	f := begin(t, folder)
	f.accept(clinic(t)...)
	f.kill()
	at := filepath.Join(t.TempDir(), "told")
	told, err := net.ListenUnixgram("unixgram", &net.UnixAddr{Name: at, Net: "unixgram"})
	if err != nil {
		t.Fatal(err)
	}
	defer told.Close()
	again := launchBy(t, "export NOTIFY_SOCKET="+at, folder)
	_ = told.SetReadDeadline(time.Now().Add(patient))
	said := make([]byte, 64)
	n, err := told.Read(said)
	if err != nil || string(said[:n]) != "READY=1" {
		t.Fatalf("systemd is told %q (%v), and the front says:\n%s", said[:n], err, again.log())
	}
	again.address = addressOf.FindStringSubmatch(again.log())[1]
	if got := again.must("/counts"); got != `{"counts":{"Deny":37,"Indeterminate":2,"NotApplicable":349,"Permit":92}}` {
		t.Errorf("the front that was begun again has %s", got)
	}
}
