package keeper

import (
	"context"
	"errors"
	"fmt"
	"sort"
	"time"

	"review-front/folder"
	"review-front/line"
)

// running is a program that has a state.
type running struct {
	*watched
	numbers *numbers       // which serials its edits have
	serial  uint64         // that of the last edit behind its state; for the goroutine that reads replies
	edit    uint64         // the same, without what campaigns have behind it, as it was brought to its state
	took    time.Duration  // how long the edits behind a snapshot took
	marks   map[int]uint64 // that it had at first, by session
}

// build starts a program and brings it to the state of the last edit on disk, with the marks that are wanted where
// they can be had. Where memory is wanting it is tried once more, line by line.
func (k *Keeper) build(ctx context.Context, marks map[int]uint64) (*running, error) {
	began := time.Now()
	r, edits, err := k.try(ctx, marks, false)
	if errors.Is(err, errMemory) {
		k.Log.Error("the program had no memory while the journal was replayed: it is tried again, slowly", "error", err)
		r, edits, err = k.try(ctx, marks, true)
	}
	if err != nil {
		return nil, err
	}
	took := time.Since(began)
	k.Meter.Built(edits, took)
	k.took.Store(int64(r.took))
	k.Log.Info("the state stands", "serial", r.serial, "replayed", edits, "took", took, "process", r.ID())
	return r, nil
}

// try is one try of build, and also says how many edits were replayed.
func (k *Keeper) try(ctx context.Context, marks map[int]uint64, careful bool) (*running, uint64, error) {
	snapshot, head, err := k.Folder.Base(oldest(marks, k.Folder.Last()))
	if err != nil {
		return nil, 0, err
	}
	if head.AttributeModules > k.Command.AttributeModules || head.PolicyModules > k.Command.PolicyModules {
		return nil, 0, fmt.Errorf("%w: the snapshot is of %d modules of attributes and %d of policies", errDamage,
			head.AttributeModules, head.PolicyModules)
	}
	w, err := k.start()
	if err != nil {
		return nil, 0, err
	}
	stop := killWith(ctx, w)
	defer stop()
	r := &running{watched: w, serial: snapshot.Serial, edit: snapshot.Serial}
	kept, err := k.replay(begin(ctx, w, careful), r, snapshot, marks)
	if err != nil {
		w.Discard()
		if ctx.Err() != nil {
			err = ctx.Err()
		}
		return nil, 0, err
	}
	r.marks = kept
	return r, r.serial - snapshot.Serial, nil
}

// killWith kills a program when the context is done, until it is told to stop watching.
func killWith(ctx context.Context, w *watched) (stop func()) {
	done := make(chan struct{})
	go func() {
		select {
		case <-ctx.Done():
			w.Kill()
		case <-done:
		}
	}()
	return func() { close(done) }
}

// replay sends the lines of a snapshot, the edits behind it, and each mark at its serial, and gives the marks that
// were made.
func (k *Keeper) replay(
	replay *replay, r *running, snapshot *folder.Snapshot, marks map[int]uint64,
) (map[int]uint64, error) {
	kept := map[int]uint64{}
	edits, err := replay.snapshotLines(snapshot, nil)
	r.numbers = from(edits, snapshot.Serial)
	due := inOrder(marks)
	mark := func() error {
		for ; len(due) > 0 && marks[due[0]] <= r.serial; due = due[1:] {
			if marks[due[0]] < r.serial {
				continue // it was made before the snapshot
			}
			sent := expected{line: line.Marking(due[0]), place: text("a mark"), check: isMark}
			if err := replay.send(sent); err != nil {
				return err
			}
			kept[due[0]] = r.serial
		}
		return nil
	}
	if err == nil {
		err = mark()
	}
	if err == nil {
		err = k.Folder.Each(snapshot.Serial, func(entry folder.Entry, place folder.Place) error {
			if err := r.tell(replay, entry, place); err != nil {
				return err
			}
			return mark()
		})
	}
	err = replay.end(err)
	r.took = time.Since(replay.read)
	return kept, err
}

// tell tells the program the next edit of a journal.
func (r *running) tell(replay *replay, entry folder.Entry, place folder.Place) error {
	r.serial = entry.Serial
	if entry.IsRecord() {
		return nil
	}
	r.edit = entry.Serial
	r.numbers.add(entry.Serial)
	return replay.send(expected{line: entry.Line, place: place, check: isSame(entry.Changes, r.numbers.own)})
}

// numbered is a reply of the program with the serials that stand for its own.
func (r *running) numbered(reply []byte) []byte {
	if r.numbers.isSame() {
		return reply
	}
	return line.Renumber(reply, r.numbers.of)
}

// oldest is the serial of the oldest mark, or else a given one.
func oldest(marks map[int]uint64, otherwise uint64) uint64 {
	for _, at := range marks {
		if at < otherwise {
			otherwise = at
		}
	}
	return otherwise
}

// inOrder lists sessions by the serials of their marks.
func inOrder(marks map[int]uint64) []int {
	var numbers []int
	for number := range marks {
		numbers = append(numbers, number)
	}
	sort.Slice(numbers, func(i, j int) bool {
		if marks[numbers[i]] != marks[numbers[j]] {
			return marks[numbers[i]] < marks[numbers[j]]
		}
		return numbers[i] < numbers[j]
	})
	return numbers
}
