package main

import (
	"net/http"
	"strings"
	"testing"
)

// editOnce edits once, and gives the status.
func (f *front) editOnce(t testing.TB, number int) int {
	body := strings.Replace(uniqueEdit(0, number), `,"do":"attr.set"`, "", 1)
	return f.send(t, http.MethodPost, "/commands/attr.set", body).status
}

// unkept begins what is said where edits can't be kept.
const unkept = "the edit can't be kept: the journal can't be written"

// TestLogFullDisk fills the disk of one of two fronts: it answers questions as of what it has, its edits get 503 or
// 504, and `/readyz` says why; when there is room again it has what the other one made.
func TestLogFullDisk(t *testing.T) {
	fronts := replicas(t, natsServers(t, 1), 2)
	full, other := fronts[0], fronts[1]
	full.accept(clinic(t)...)
	fates := newFate()
	for round := 0; round < 2; round++ {
		before := full.serial("/counts", nil)
		limitFiles(t, full.process.Process.Pid, 1_000)
		other.accept(numbered(100*round, 20)...)
		eventually(t, "it is told that edits can't be kept", func() bool {
			status, ready := full.get("/readyz")
			return status == http.StatusOK && strings.Contains(ready, `"edits":"`+unkept+`: file too large"`)
		})
		if taken := full.metric("review_front_edits_taken"); taken != 0 {
			t.Errorf("while edits can't be kept it is counted that %v are taken", taken)
		}
		for i := 0; i < 5; i++ {
			full.must("/table")
			if serial := full.serial("/counts", nil); serial != before {
				t.Errorf("a front whose disk is full answers as of %s, and had %s", serial, before)
			}
			fates.edit(t, full, uniqueEdit(50_000+round, i))
		}
		if fates.acknowledged() > 0 {
			t.Error("an edit is acknowledged that can't be kept")
		}
		other.accept(numbered(100*round+20, 20)...)
		limitFiles(t, full.process.Process.Pid, 1<<40)
		fates.same(t, fronts)
		if taken := full.metric("review_front_edits_taken"); taken != 1 {
			t.Errorf("when there is room again it is counted that %v are taken", taken)
		}
		if status := full.editOnce(t, 200_000+round); status != http.StatusOK {
			t.Errorf("when there is room again an edit is answered %d", status)
		}
		fates.same(t, fronts)
	}
}
