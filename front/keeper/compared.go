package keeper

import (
	"bytes"
	"context"
	"crypto/sha256"
	"encoding/hex"
	"errors"
	"fmt"
	"sync"
	"time"

	"review-front/folder"
	"review-front/replicated"
)

// keptSums is of how many sequences checksums are kept until others tell theirs.
const keptSums = 16

// errDiffers says that the program that serves has another state than its edits give.
var errDiffers = errors.New("the state isn't that which the edits of the stream give")

// errStray says that the edits on disk aren't those of the stream.
var errStray = errors.New("the folder has another edit than the stream: set the folder aside, and start again")

// dumpBegins is how the reply to a dump begins.
var dumpBegins = []byte(`{"dump":`)

// ownSum is this front's checksum at a sequence, and whether another front told another one.
type ownSum struct {
	sum     string
	differs bool
}

// sums are the checksums of dumps at some sequences, of this front and of others.
type sums struct {
	keeper *Keeper
	name   string // this front's, by chance
	mutex  sync.Mutex
	own    map[uint64]*ownSum
	newest uint64 // the sequence of the last of these
	others map[uint64][]replicated.Sum
	told   chan replicated.Sum // this front's, which the others are to be told
	differ chan replicated.Sum // this front's, where another front has another one
}

func newSums(k *Keeper) *sums {
	name, err := newID()
	if err != nil {
		name = "a front"
	}
	return &sums{
		keeper: k, name: name, own: map[uint64]*ownSum{}, others: map[uint64][]replicated.Sum{},
		told: make(chan replicated.Sum, keptSums), differ: make(chan replicated.Sum, keptSums),
	}
}

// isDue says whether the dump behind an edit is compared.
func (s *sums) isDue(sequence uint64) bool {
	every := s.keeper.CheckEvery
	return every != 0 && sequence != 0 && sequence%every == 0
}

// sumOf is the checksum of a dump, and is false where there was none.
func sumOf(dump []byte) (string, bool) {
	sum := sha256.Sum256(dump)
	return hex.EncodeToString(sum[:]), bytes.HasPrefix(dump, dumpBegins)
}

// add adds this front's checksum at a sequence.
func (s *sums) add(sequence uint64, dump []byte) {
	sum, ok := sumOf(dump)
	if !ok {
		return
	}
	s.mutex.Lock()
	defer s.mutex.Unlock()
	s.own[sequence], s.newest = &ownSum{sum: sum}, sequence
	select {
	case s.told <- replicated.Sum{Front: s.name, Sequence: sequence, Sum: sum}:
	default: // the stream is away, and others have told of this one
	}
	for at := range s.own {
		if at+keptSums*s.keeper.CheckEvery < sequence {
			delete(s.own, at)
		}
	}
	for at, some := range s.others {
		if at == sequence {
			for _, other := range some {
				s.compare(other)
			}
		}
		if at <= sequence {
			delete(s.others, at)
		}
	}
}

// hear compares another front's checksum, now or once this front has its own.
func (s *sums) hear(other replicated.Sum) {
	if other.Front == s.name || !s.isDue(other.Sequence) {
		return
	}
	s.mutex.Lock()
	defer s.mutex.Unlock()
	if _, there := s.own[other.Sequence]; there {
		s.compare(other)
		return
	}
	if other.Sequence > s.newest && len(s.others) < keptSums {
		s.others[other.Sequence] = append(s.others[other.Sequence], other)
	}
}

// compare compares another front's with this one's, of which it is told once that they differ. It is for who has the
// mutex.
func (s *sums) compare(other replicated.Sum) {
	own := s.own[other.Sequence]
	if own.sum == other.Sum || own.differs {
		return
	}
	own.differs = true
	s.keeper.Log.Error("another front has another state", "sequence", other.Sequence, "front", other.Front)
	select {
	case s.differ <- replicated.Sum{Front: s.name, Sequence: other.Sequence, Sum: own.sum}:
	default: // others are looked at already
	}
}

// run tells checksums and hears those of others until the context is done, or this front has another state than its
// edits give. Where it can't be found out yet who is wrong, that is tried again.
func (s *sums) run(ctx context.Context) error {
	if s == nil || s.keeper.CheckEvery == 0 {
		return nil
	}
	stop, err := s.keeper.Stream.Hear(s.hear)
	if err != nil {
		return err
	}
	defer stop()
	var doubted replicated.Sum
	var due <-chan time.Time
	pause := firstPause
	for {
		select {
		case own := <-s.told:
			s.tell(own)
		case doubted = <-s.differ:
			s.tell(doubted) // before this front stops, if it is wrong: the other may not have heard it
			due, pause = time.After(0), firstPause
		case <-due:
			due = nil
			if err := s.judge(ctx, doubted); isWrong(err) {
				return err
			} else if err != nil && ctx.Err() == nil {
				s.keeper.Log.Error("it can't be said which front is wrong, and is tried again",
					"sequence", doubted.Sequence, "error", err, "after", pause)
				due, pause = time.After(pause), longer(pause)
			}
		case <-ctx.Done():
			return nil
		}
	}
}

// tell tells other fronts a checksum.
func (s *sums) tell(own replicated.Sum) {
	if err := s.keeper.Stream.Tell(own); err != nil {
		s.keeper.Log.Error("a checksum isn't told", "error", err)
	}
}

// strays is the sequence of the first edit on disk, up to one, that the stream has otherwise; 0 where there is none.
func (k *Keeper) strays(ctx context.Context, upTo uint64) (uint64, error) {
	extent, err := k.Stream.Extent(ctx)
	if err != nil {
		return 0, err
	}
	since := k.Folder.First()
	if since < extent.First {
		since = extent.First
	}
	since-- // both are at least 1: a journal is begun before anything is compared
	held := map[uint64][sha256.Size]byte{}
	var last uint64
	var lines []byte // of its edit, or of those that were made all together
	err = k.Folder.Each(since, func(entry folder.Entry, _ folder.Place) error {
		if entry.Serial == last {
			lines = append(append(lines, newline...), entry.Line...)
		} else {
			lines = append(lines[:0], entry.Line...)
		}
		last, held[entry.Serial] = entry.Serial, sha256.Sum256(lines)
		return nil
	})
	if err != nil {
		return 0, err
	}
	found := uint64(0)
	err = k.Stream.Read(ctx, since, func(edit replicated.Edit) error {
		if sum, there := held[edit.Sequence]; there && sum != sha256.Sum256(edit.Line) {
			found = edit.Sequence
		}
		if found != 0 || edit.Sequence >= upTo {
			return errEnough
		}
		return nil
	})
	if err != errEnough {
		return 0, err
	}
	return found, nil
}

// isWrong says whether an error is that this front is wrong.
func isWrong(err error) bool { return errors.Is(err, errDiffers) || errors.Is(err, errStray) }

// judge sees whether the edits on disk are those of the stream, and whether a second program that is told the edits up to
// a sequence comes to this front's checksum. Without an error another front is wrong.
func (s *sums) judge(ctx context.Context, own replicated.Sum) error {
	k := s.keeper
	stray, err := k.strays(ctx, own.Sequence)
	if err != nil {
		return fmt.Errorf("the edits on disk can't be compared with the stream: %w", err)
	}
	if stray != 0 {
		return fmt.Errorf("sequence %d: %w", stray, errStray)
	}
	dump, err := k.replayed(ctx, own.Sequence)
	if err != nil {
		return fmt.Errorf("the state can't be compared with that of a second program: %w", err)
	}
	sum, ok := sumOf(dump)
	if !ok {
		return fmt.Errorf("a second program tells no dump: %.200s", dump)
	}
	if sum != own.Sum {
		return fmt.Errorf("sequence %d: %w", own.Sequence, errDiffers)
	}
	k.Log.Error("a second program has this front's state: another front is wrong", "sequence", own.Sequence)
	return nil
}

// replayed is the dump of a second program that is told the edits up to a serial.
func (k *Keeper) replayed(ctx context.Context, serial uint64) ([]byte, error) {
	snapshot, _, err := k.Folder.Base(serial)
	if err != nil {
		return nil, err
	}
	w, err := k.aside()
	if err != nil {
		return nil, err
	}
	stop := killWith(ctx, w)
	defer stop()
	defer w.Close()
	replay := begin(ctx, w, false)
	r := &running{watched: w, serial: snapshot.Serial}
	edits, err := replay.snapshotLines(snapshot, nil)
	r.numbers = from(edits, snapshot.Serial)
	if err == nil {
		err = k.Folder.Each(snapshot.Serial, func(entry folder.Entry, place folder.Place) error {
			if entry.Serial > serial {
				return errEnough
			}
			return r.tell(replay, entry, place)
		})
	}
	if err == errEnough {
		err = nil
	}
	if err = replay.end(err); err != nil {
		return nil, err
	}
	return exchange(w, dumping)
}
