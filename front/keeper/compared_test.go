package keeper

import (
	"bytes"
	"context"
	"errors"
	"fmt"
	"os"
	"strings"
	"sync"
	"testing"
	"time"

	"review-front/folder"
	"review-front/limits"
	"review-front/line"
	"review-front/logs"
	"review-front/program"
	"review-front/replicated"
)

// fakeStream has edits, and nobody appends to it. It notes what it is told and asked, and what is logged.
type fakeStream struct {
	replicated.Log
	edits []replicated.Edit
	mutex sync.Mutex
	away  int // how often more it can't be reached
	notes []string
}

// note notes that something happened.
func (f *fakeStream) note(what string) {
	f.mutex.Lock()
	defer f.mutex.Unlock()
	f.notes = append(f.notes, what)
}

// noted is how often something happened.
func (f *fakeStream) noted(what string) (times int) {
	f.mutex.Lock()
	defer f.mutex.Unlock()
	for _, note := range f.notes {
		if note == what {
			times++
		}
	}
	return times
}

// Extent is what it has, unless it is away.
func (f *fakeStream) Extent(context.Context) (replicated.Extent, error) {
	f.note("looked")
	f.mutex.Lock()
	defer f.mutex.Unlock()
	if f.away > 0 {
		f.away--
		return replicated.Extent{}, replicated.ErrAway
	}
	return replicated.Extent{Name: "edits", First: 1, Last: uint64(len(f.edits))}, nil
}

// Read hands out its edits.
func (f *fakeStream) Read(_ context.Context, behind uint64, take func(replicated.Edit) error) error {
	for _, edit := range f.edits[behind:] {
		if err := take(edit); err != nil {
			return err
		}
	}
	return errors.New("there are no more edits")
}

// Tell notes a checksum.
func (f *fakeStream) Tell(sum replicated.Sum) error {
	f.note(fmt.Sprintf("told %d %s", sum.Sequence, sum.Sum))
	return nil
}

// Hear hears nothing: tests say themselves what others told.
func (f *fakeStream) Hear(func(replicated.Sum)) (func(), error) { return func() {}, nil }

// Write takes what a keeper logs.
func (f *fakeStream) Write(b []byte) (int, error) {
	f.note(string(bytes.TrimSpace(b)))
	return len(b), nil
}

// logged says whether something was.
func (f *fakeStream) logged(words string) bool {
	f.mutex.Lock()
	defer f.mutex.Unlock()
	return strings.Contains(strings.Join(f.notes, "\n"), words)
}

// comparing is the checksums of a front whose folder has all edits of a stream, that stream, and the dump that its edits
// give.
func comparing(t *testing.T, edits int) (*sums, *fakeStream, []byte) {
	t.Helper()
	path := os.Getenv("REVIEW_PROGRAM")
	if path == "" {
		t.Skip("REVIEW_PROGRAM names no program")
	}
	held, err := folder.Open(t.TempDir())
	if err != nil {
		t.Fatal(err)
	}
	t.Cleanup(func() { held.Close() })
	stream := &fakeStream{}
	k := New(Options{
		Command: program.Command{
			Path: path, AttributeModules: 2, PolicyModules: 2, Limits: limits.Standard, Faults: os.Stderr,
		},
		Folder: held, Log: logs.New(stream), Stream: stream, CheckEvery: 10,
	})
	w, err := k.start()
	if err != nil {
		t.Fatal(err)
	}
	defer w.Close()
	err = held.Begin(folder.Head{Program: "a test", AttributeModules: 2, PolicyModules: 2, Stream: "edits"})
	for i := 1; err == nil && i <= edits; i++ {
		edit := replicated.Edit{Line: []byte(fmt.Sprintf(`{"do":"person.add","name":"p-%d"}`, i)), Sequence: uint64(i)}
		stream.edits = append(stream.edits, edit)
		var reply []byte
		if reply, err = exchange(w, edit.Line); err == nil {
			said, _ := line.ReadAccepted(reply)
			entry := folder.Entry{Time: time.Now(), Serial: edit.Sequence, Changes: said.Changes, Line: edit.Line}
			err = held.Append([]folder.Entry{entry})
		}
	}
	dump, also := exchange(w, dumping)
	if err != nil || also != nil {
		t.Fatal(err, also)
	}
	return k.streamed.sums, stream, dump
}

// until waits until something is so.
func (f *fakeStream) until(t *testing.T, what string, is func() bool) {
	t.Helper()
	for end := time.Now().Add(5 * time.Minute); time.Now().Before(end); time.Sleep(time.Millisecond) {
		if is() {
			return
		}
	}
	f.mutex.Lock()
	defer f.mutex.Unlock()
	t.Fatalf("it doesn't come to be so: %s:\n%s", what, strings.Join(f.notes, "\n"))
}

// runs has checksums be compared until the test ends, and gives what that ends with.
func (s *sums) runs(t *testing.T) <-chan error {
	ctx, cancel := context.WithCancel(context.Background())
	t.Cleanup(cancel)
	ended := make(chan error, 1)
	go func() { ended <- s.run(ctx) }()
	return ended
}

// TestWrongTells has a front be wrong whose checksum was told when nobody heard it: it is told again before it ends.
func TestWrongTells(t *testing.T) {
	s, stream, dump := comparing(t, 10)
	right, _ := sumOf(dump)
	wrong, _ := sumOf(dump[:len(dump)-1])
	ended := s.runs(t)
	s.add(10, dump[:len(dump)-1])
	told := "told 10 " + wrong
	stream.until(t, "it is told", func() bool { return stream.noted(told) == 1 })
	s.hear(replicated.Sum{Front: "another", Sequence: 10, Sum: right})
	if err := <-ended; !errors.Is(err, errDiffers) {
		t.Errorf("a front that is wrong ends with %v", err)
	}
	if times := stream.noted(told); times != 2 {
		t.Errorf("its checksum is told %d times", times)
	}
}

// TestWrongWaits has another's checksum wait for that of a front that is wrong: this is told before it ends.
func TestWrongWaits(t *testing.T) {
	s, stream, dump := comparing(t, 10)
	right, _ := sumOf(dump)
	wrong, _ := sumOf(dump[:len(dump)-1])
	ended := s.runs(t)
	s.hear(replicated.Sum{Front: "another", Sequence: 10, Sum: right})
	s.add(10, dump[:len(dump)-1])
	if err := <-ended; !errors.Is(err, errDiffers) {
		t.Errorf("a front that is wrong ends with %v", err)
	}
	if stream.noted("told 10 "+wrong) == 0 {
		t.Error("its checksum isn't told")
	}
}

// TestJudgedLater has a front be right that can't see who is wrong as long as the stream is away: it says so once it
// sees it, also where it doesn't keep its checksum any more.
func TestJudgedLater(t *testing.T) {
	s, stream, dump := comparing(t, 10)
	stream.away = 3
	ended := s.runs(t)
	s.add(10, dump)
	for i := 0; i < 2; i++ {
		s.hear(replicated.Sum{Front: "another", Sequence: 10, Sum: "another"})
	}
	stream.until(t, "it looks", func() bool { return stream.noted("looked") > 0 })
	s.add(10*(keptSums+2), dump)
	stream.until(t, "it says who is wrong", func() bool { return stream.logged("another front is wrong") })
	if looked := stream.noted("looked"); looked != 4 {
		t.Errorf("it is looked %d times", looked)
	}
	select {
	case err := <-ended:
		t.Errorf("it ends with %v", err)
	default:
	}
}

// TestStrayLater has a front have another edit than the stream, which is away at first: it doesn't say that others are
// wrong, whose state its own edits give.
func TestStrayLater(t *testing.T) {
	s, stream, dump := comparing(t, 10)
	stream.away = 1
	stream.edits[6].Line = []byte(`{"do":"person.add","name":"another"}`)
	ended := s.runs(t)
	s.add(10, dump)
	s.hear(replicated.Sum{Front: "another", Sequence: 10, Sum: "another"})
	stream.until(t, "it is known who is wrong", func() bool {
		return len(ended) > 0 || stream.logged("another front is wrong")
	})
	if stream.logged("another front is wrong") {
		t.Fatal("another front is said to be wrong")
	}
	if err := <-ended; !errors.Is(err, errStray) || !strings.Contains(err.Error(), "sequence 7") {
		t.Errorf("it ends with %v", err)
	}
}
