package keys

import (
	"context"
	"errors"
	"fmt"
	"os"
	"strings"
	"testing"
	"time"

	"review-front/folder"
	"review-front/frame"
)

// held is a folder, and what is remembered in it.
type held struct {
	*testing.T
	*Table
	folder *folder.Folder
}

func hold(t *testing.T) *held {
	t.Helper()
	f, err := folder.Open(t.TempDir())
	if err != nil {
		t.Fatal(err)
	}
	t.Cleanup(f.Close)
	return &held{T: t, Table: New(f), folder: f}
}

// again is what another start remembers, whose journal ends at a serial.
func (h *held) again(last uint64) *held {
	h.T.Helper()
	other := &held{T: h.T, Table: New(h.folder), folder: h.folder}
	if err := other.Recover(last); err != nil {
		h.T.Fatal(err)
	}
	h.T.Cleanup(other.Table.Close)
	return other
}

// begin has a body with a key.
func (h *held) begin(key, content string) *Use {
	h.T.Helper()
	use, err := h.Begin(context.Background(), Of("", key), []byte(content))
	if err != nil {
		h.T.Fatal(err)
	}
	return use
}

// tell remembers the reply to the next line of a body.
func (h *held) tell(key, content, reply string, serial uint64) {
	h.T.Helper()
	use := h.begin(key, content)
	defer use.End()
	if err := h.Append([]Told{{Line: use.Line(len(use.Replies())), Reply: []byte(reply), Serial: serial}}); err != nil {
		h.T.Fatal(err)
	}
}

// replies are those that are remembered to a body.
func (h *held) replies(key, content string) string {
	h.T.Helper()
	use := h.begin(key, content)
	defer use.End()
	var all []string
	for _, reply := range use.Replies() {
		all = append(all, string(reply))
	}
	return strings.Join(all, " ")
}

func (h *held) want(key, content, want string) {
	h.T.Helper()
	if got := h.replies(key, content); got != want {
		h.T.Errorf("of %s the replies %s are remembered, and not %s", key, got, want)
	}
}

// TestAgain asks for the replies to a body with a key, in the same start and in the next; with another body, of another
// client, and of another key there are none.
func TestAgain(t *testing.T) {
	h := hold(t)
	h.tell("a", "one two", "1", 1)
	h.tell("b", "three", "2", 2)
	h.tell("a", "one two", "3", 3)
	for _, now := range []*held{h, h.again(3), h.again(3).again(0)} {
		now.want("a", "one two", "1 3")
		now.want("b", "three", "2")
		now.want("c", "three", "")
		if _, err := now.Begin(context.Background(), Of("", "a"), []byte("three")); !errors.Is(err, ErrOther) {
			t.Errorf("another body with the key is taken: %v", err)
		}
		other, err := now.Begin(context.Background(), Of("eve", "a"), []byte("three"))
		if err != nil || len(other.Replies()) != 0 {
			t.Fatalf("another client's key isn't his own: %v", err)
		}
		other.End()
	}
}

// TestOneAtATime lets two have a body with the same key: the second waits for the first, or until he goes.
func TestOneAtATime(t *testing.T) {
	h := hold(t)
	first := h.begin("a", "one")
	ctx, cancel := context.WithTimeout(context.Background(), 20*time.Millisecond)
	defer cancel()
	if _, err := h.Begin(ctx, Of("", "a"), []byte("one")); !errors.Is(err, context.DeadlineExceeded) {
		t.Fatalf("two have the body: %v", err)
	}
	second := make(chan string)
	go func() { second <- h.replies("a", "one") }()
	if err := h.Append([]Told{{Line: first.Line(0), Reply: []byte("1"), Serial: 1}}); err != nil {
		t.Fatal(err)
	}
	first.End()
	if got := <-second; got != "1" {
		t.Errorf("the second has the replies %q", got)
	}
}

// TestBehind reads replies that tell of edits which the journal hasn't: they don't count, then or later.
func TestBehind(t *testing.T) {
	h := hold(t)
	h.tell("a", "one two", "1", 7)
	h.tell("a", "one two", "2", 8)
	h.tell("b", "three", "3", 8)
	for _, last := range []uint64{7, 9} {
		now := h.again(last)
		now.want("a", "one two", "1")
		now.want("b", "three", "")
		h = now
	}
}

// TestUndone takes replies back whose edits couldn't be kept: nothing is remembered before the file is written anew.
func TestUndone(t *testing.T) {
	h := hold(t)
	h.tell("a", "one two", "1", 1)
	h.tell("a", "one two", "2", 2)
	h.Undo()
	use := h.begin("b", "three")
	defer use.End()
	told := []Told{{Line: use.Line(0), Reply: []byte("3"), Serial: 2}}
	if err := h.Append(told); err == nil || h.Broken() == nil {
		t.Fatal("more is remembered before the file is written anew")
	}
	if err := h.Repair(); err != nil || h.Broken() != nil {
		t.Fatal(err)
	}
	if err := h.Append(nil); err != nil {
		t.Fatal(err)
	}
	h.Undo() // of nothing
	if err := h.Append(told); err != nil {
		t.Fatal(err)
	}
	h.want("a", "one two", "1")
	now := h.again(2)
	now.want("a", "one two", "1")
	now.want("b", "three", "3")
}

// broken is a folder in which no file can be written.
type broken struct{ *folder.Folder }

func (broken) Replace(string, []byte) (*os.File, error) { return nil, errors.New("the disk is full") }

// TestFull remembers nothing where the file can't be written, until it can.
func TestFull(t *testing.T) {
	h := hold(t)
	whole := h.Table.folder
	h.Table.folder = broken{h.folder}
	use := h.begin("a", "one")
	told := []Told{{Line: use.Line(0), Reply: []byte("1"), Serial: 1}}
	for i := 0; i < 2; i++ {
		if err := h.Append(told); err == nil || h.Repair() == nil {
			t.Fatal("something is remembered on a full disk")
		}
	}
	use.End()
	h.Table.folder = whole
	if err := h.Repair(); err != nil {
		t.Fatal(err)
	}
	h.want("a", "one", "")
	h.tell("a", "one", "1", 1)
	h.want("a", "one", "1")
}

// TestForgotten forgets the oldest of too many keys, and those that are too old; the file stays short.
func TestForgotten(t *testing.T) {
	h := hold(t)
	h.most = 3
	long := `"` + strings.Repeat("x", 40_000) + `"`
	for i := 0; i < 60; i++ {
		h.tell(fmt.Sprint(i), "one", long, uint64(i+1))
	}
	h.want("0", "one", "")
	h.want("56", "one", "")
	h.want("59", "one", long)
	about, err := os.Stat(h.folder.Path("keys"))
	if err != nil || about.Size() > 1_500_000 {
		t.Errorf("the file has %d bytes, %v", about.Size(), err)
	}
	now := h.again(1000)
	now.want("59", "one", long)
	now.kept = time.Nanosecond
	now.want("59", "one", "")
	if len(now.known) != 0 || len(now.order) != 0 || now.live != 0 {
		t.Errorf("%d keys are known, with %d bytes", len(now.known), now.live)
	}
}

// TestRenewed uses a key anew that was forgotten: what stands in the file of before doesn't count.
func TestRenewed(t *testing.T) {
	h := hold(t)
	h.kept = time.Nanosecond
	h.tell("a", "one", "1", 1)
	h.tell("a", "two", "2", 2)
	h.again(2).want("a", "two", "2")
}

// TestCut cuts the file at each fifth byte, and changes it: what was cut off is dropped, a change is damage.
func TestCut(t *testing.T) {
	h := hold(t)
	h.tell("a", "one two", "1", 1)
	h.tell("a", "one two", "2", 2)
	path := h.folder.Path("keys")
	content, err := os.ReadFile(path)
	if err != nil {
		t.Fatal(err)
	}
	first := strings.IndexByte(string(content), '\n') + 1
	second := first + strings.IndexByte(string(content[first:]), '\n') + 1
	for at := 0; at < len(content); at += 5 {
		for _, other := range [][]byte{content[:at], flipped(content, at)} {
			if err := os.WriteFile(path, other, 0o600); err != nil {
				t.Fatal(err)
			}
			now := &held{T: t, Table: New(h.folder), folder: h.folder}
			err := now.Recover(2)
			now.Table.Close()
			var damage *frame.Damage
			if len(other) == len(content) || at < first {
				if !errors.As(err, &damage) {
					t.Fatalf("byte %d of %d: %v", at, len(other), err)
				}
				continue
			}
			want := ""
			if at >= second {
				want = "1"
			}
			if err != nil {
				t.Fatalf("cut at %d: %v", at, err)
			}
			now.want("a", "one two", want)
		}
	}
}

func flipped(content []byte, at int) []byte {
	changed := append([]byte(nil), content...)
	changed[at] ^= 4
	return changed
}
