package main

import (
	"fmt"
	"os"
	"sort"
	"sync"
	"sync/atomic"
	"time"
)

const (
	snapshotEdits  = 40_000 // that stand behind the state of which snapshots are made
	snapshotAskers = 4
	snapshotRounds = 8
)

// snapshots compares asks while a snapshot is made with asks between two of them, in turn.
func (r run) snapshots() error {
	front, err := r.start(r.folder+"/snapshots", "--snapshot-every", fmt.Sprint(snapshotEdits), "--replay-time", "0")
	if err != nil {
		return err
	}
	defer front.stop(false)
	lines, err := os.ReadFile(r.clinic)
	if err != nil {
		return err
	}
	for i := 0; i < snapshotEdits; i++ {
		lines = append(lines, edit(i, i%2_000)...)
	}
	if _, err := post(lines); err != nil {
		return err
	}
	if err := front.stop(true); err != nil {
		return err
	}
	if front, err = r.start(r.folder+"/snapshots", "--snapshot-every", "1", "--replay-time", "0"); err != nil {
		return err
	}
	defer front.stop(false)
	var idle, beside []time.Duration
	var all time.Duration
	for round := 0; round < snapshotRounds; round++ {
		taken, err := askedFor(func() error { time.Sleep(r.time / 4); return nil })
		if err != nil {
			return err
		}
		idle = append(idle, taken...)
		began := time.Now()
		if taken, err = askedFor(func() error { return snapshot(round) }); err != nil {
			return err
		}
		beside = append(beside, taken...)
		all += time.Since(began)
	}
	at, while := slowest(idle), slowest(beside)
	fmt.Printf("asks beside a snapshot    slowest of a hundred %v, between snapshots %v, %4.1f times; one takes %v\n",
		while.Round(time.Microsecond), at.Round(time.Microsecond), float64(while)/float64(at),
		(all / snapshotRounds).Round(time.Millisecond))
	return nil
}

// snapshot edits, and waits until a snapshot was made for that.
func snapshot(number int) error {
	const kept = `review_front_snapshots_total\{outcome="kept"\}`
	before, _ := metric(kept) // none was made yet
	if _, err := post(edit(0, number)); err != nil {
		return err
	}
	for began := time.Now(); time.Since(began) < 10*time.Minute; time.Sleep(5 * time.Millisecond) {
		if now, err := metric(kept); err == nil && now > before {
			return nil
		}
	}
	return fmt.Errorf("no snapshot is made")
}

// askedFor asks over some connections while something is done, and gives how long each answer took.
func askedFor(call func() error) ([]time.Duration, error) {
	var ended atomic.Bool
	var all sync.WaitGroup
	times, faults := make([][]time.Duration, snapshotAskers), make([]error, snapshotAskers)
	for i := 0; i < snapshotAskers; i++ {
		all.Add(1)
		go func(i int) {
			defer all.Done()
			for !ended.Load() && faults[i] == nil {
				var taken []time.Duration
				taken, faults[i] = asking(address, i, time.Now().Add(20*time.Millisecond))
				times[i] = append(times[i], taken...)
			}
		}(i)
	}
	err := call()
	ended.Store(true)
	all.Wait()
	var every []time.Duration
	for i := range times {
		if every = append(every, times[i]...); faults[i] != nil {
			err = faults[i]
		}
	}
	return every, err
}

// slowest is what the slowest of a hundred takes.
func slowest(times []time.Duration) time.Duration {
	sort.Slice(times, func(i, j int) bool { return times[i] < times[j] })
	return times[len(times)*99/100]
}
