//go:build nats

package jetstream

import (
	"testing"
	"time"

	"github.com/nats-io/nats.go"
)

// TestLacking sees a stream end before what was read, at looks ten seconds apart: the time counts while the same server
// leads and comes to no more.
func TestLacking(t *testing.T) {
	var l lacking
	at := time.Now()
	for i, one := range []struct {
		last   uint64
		leader string
		want   time.Duration
	}{
		{100, "s1", 0}, {90, "s1", 0}, {90, "s1", 10 * time.Second}, {90, "s1", 20 * time.Second}, {95, "s1", 0},
		{95, "s1", 10 * time.Second}, {95, "s2", 0}, {95, "s2", 10 * time.Second}, {101, "s2", 0}, {95, "s2", 0},
	} {
		at = at.Add(10 * time.Second)
		if got := l.sees(lacking{since: at, last: one.last, leader: one.leader}, 100); got != one.want {
			t.Errorf("look %d: it lacks edits for %v", i, got)
		}
	}
}

// TestAgrees has edits be agreed on where the server that leads hears of most, itself among them.
func TestAgrees(t *testing.T) {
	heard, silent := &nats.PeerInfo{Active: time.Second}, &nats.PeerInfo{Active: time.Minute}
	offline := &nats.PeerInfo{Active: time.Second, Offline: true}
	for i, one := range []struct {
		others []*nats.PeerInfo
		want   bool
	}{
		{nil, true}, {[]*nats.PeerInfo{heard, silent}, true}, {[]*nats.PeerInfo{offline, silent}, false},
		{[]*nats.PeerInfo{heard, silent, silent, silent}, false}, {[]*nats.PeerInfo{heard, heard, silent, offline}, true},
	} {
		if got := agrees(&nats.ClusterInfo{Replicas: one.others}); got != one.want {
			t.Errorf("servers %d agree: %v", i, got)
		}
	}
}

// TestChange has another server be asked for where the one that leads has acknowledged nothing for long, and edits are
// sent to it: not at once, not where it was elected since, and not again soon.
func TestChange(t *testing.T) {
	w := newWatched()
	w.leader = "s1"
	long := time.Now().Add(-lackTime - w.patience - time.Second)
	for i, one := range []struct {
		unanswered, late time.Time
		want             bool
	}{
		{time.Time{}, time.Time{}, false}, {time.Now(), time.Now(), false}, {long, long, false}, {long, time.Now(), true},
		{long, time.Now(), false},
	} {
		w.unanswered, w.late = one.unanswered, one.late
		if why := w.isToChange(); (why != "") != one.want {
			t.Errorf("%d: another one is asked for: %q", i, why)
		}
	}
}
