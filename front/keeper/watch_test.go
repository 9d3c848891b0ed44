package keeper

import (
	"testing"
	"time"

	"review-front/line"
	"review-front/program"
)

// seen is what is seen of a program by looks, one after another, each a while behind the one before.
type seen struct {
	worked time.Duration // how long it worked between two looks
	runs   bool          // whether it runs or waits for a processor
}

// TestHangs looks at programs, of which each reply has a second: by how many looks it has had its time, which is told
// in eighths of a second, or that it has it never.
func TestHangs(t *testing.T) {
	const eighth = time.Second / looksInTime
	const often = 1000
	for _, one := range []struct {
		name string
		kind line.Kind
		sent int64 // how many lines on their way have a time
		last int64 // and how many may take long
		seen seen
		late time.Duration // how late the front comes to look
		hang int           // 0: never
	}{
		{"a question that takes all of a processor", line.Question, 1, 0, seen{eighth, true}, 0, 8},
		{"a question that gets a tenth of one", line.Question, 1, 0, seen{eighth / 10, true}, 0, 80},
		{"a question that waits for one", line.Question, 1, 0, seen{0, true}, 0, 0},
		{"a question over which it stands still", line.Question, 1, 0, seen{0, false}, 0, 8},
		{"one of four", line.Question, 4, 0, seen{eighth, true}, 0, 32},
		{"one of many", line.Question, 999, 0, seen{eighth, true}, 0, 8 * mostAtOnce},
		{"one of many over which it stands still", line.Question, 999, 0, seen{0, false}, 0, 8},
		{"an edit that takes all of a processor", line.Edit, 0, 9, seen{eighth, true}, 0, 0},
		{"an edit that waits for one", line.Edit, 0, 9, seen{0, true}, 0, 0},
		{"an edit over which it stands still", line.Edit, 0, 9, seen{0, false}, 0, 8},
		{"a mark with edits behind it", line.Mark, 0, 8, seen{eighth, true}, 0, 0},
		{"a mark with questions behind it", line.Mark, 2, 0, seen{eighth, true}, 0, 16},
		{"counts", line.Light, 0, 0, seen{eighth, true}, 0, 8},
		{"what changed", line.Changes, 0, 1, seen{eighth, true}, 0, 0},
		{"a front that comes late to look", line.Question, 1, 0, seen{0, false}, time.Minute, 4},
	} {
		worked := time.Duration(0)
		w := &watched{time: time.Second}
		w.work = func() program.Work { return program.Work{Took: worked, Runs: one.seen.runs} }
		w.call.Store(&Call{kind: one.kind})
		w.timed.Store(one.sent)
		w.lasting.Store(one.last)
		now := time.Now()
		last := &look{at: now}
		hang := 0
		for looks := 1; looks <= often && hang == 0; looks++ {
			now = now.Add(eighth + 1 + one.late)
			worked += one.seen.worked
			if w.hangs(last, now) {
				hang = looks
			}
		}
		if hang != one.hang {
			t.Errorf("%s has its time after %d looks, and not %d", one.name, hang, one.hang)
		}
		if still := one.seen == (seen{}); w.stuck.Load() != still {
			t.Errorf("%s: it stands still: %v", one.name, !still)
		}
	}
}

// TestMoves has an edit over which the program stands still for half of its time, moves, and stands still again.
func TestMoves(t *testing.T) {
	took := time.Duration(0)
	w := &watched{time: time.Second, work: func() program.Work { return program.Work{Took: took} }}
	w.call.Store(&Call{kind: line.Edit})
	now := time.Now()
	last := &look{at: now}
	for round := 0; round < 20; round++ {
		for looks := 0; looks < 4; looks++ {
			now = now.Add(w.pause())
			if w.hangs(last, now) {
				t.Fatalf("it hangs in round %d", round)
			}
		}
		took += time.Second
	}
}
