package keys

import (
	"context"
	"errors"
	"testing"
	"time"
)

// told is a reply to a line.
func told(line Line, reply string) Told { return Told{Line: line, Reply: []byte(reply), Serial: 1} }

// TestLines remembers replies to lines that a stream brings, whoever sent them, each as that to its line: one that
// comes again, or before which one is missing, or of another body with the key, isn't.
func TestLines(t *testing.T) {
	h := hold(t)
	use, other := h.begin("a", "one two three"), h.begin("b", "four")
	first := use.Line(0)
	use.End()
	other.End()
	ofOther := other.Line(0)
	ofOther.key = first.key
	for _, all := range [][]Told{
		{told(first, "1"), told(first, "2")},
		{told(first.Next(2), "3"), told(ofOther, "4"), told(first, "5")},
		{told(first.Next(1), "6"), told(other.Line(0).Next(1), "7")},
	} {
		if err := h.Append(all); err != nil {
			t.Fatal(err)
		}
	}
	for _, now := range []*held{h, h.again(1), h.again(1).again(1)} {
		now.want("a", "one two three", "1 6")
		now.want("b", "four", "")
		for number, want := range []string{"1", "6", ""} {
			if reply, _ := now.Reply(first.Next(number)); string(reply) != want {
				t.Errorf("line %d is remembered as answered %q", number, reply)
			}
		}
	}
	content, err := h.Content()
	if err != nil {
		t.Fatal(err)
	}
	for last, want := range []string{"", "1 6"} {
		next := hold(t)
		if err := next.Adopt(content); err != nil {
			t.Fatal(err)
		}
		next.again(uint64(last)).want("a", "one two three", want)
	}
}

// TestRefused remembers for which edit a body isn't made all together: that is no reply to its lines.
func TestRefused(t *testing.T) {
	h := hold(t)
	use := h.begin("a", "one two")
	use.End()
	one := told(use.Line(0), "1")
	one.Part = 2
	if err := h.Append([]Told{one}); err != nil {
		t.Fatal(err)
	}
	for _, now := range []*held{h, h.again(1), h.again(1).again(1)} {
		now.want("a", "one two", "")
		if _, refused := now.Reply(use.Line(0)); refused == nil || refused.Number != 2 || string(refused.Reply) != "1" {
			t.Errorf("it is remembered that it is refused for %+v", refused)
		}
	}
	h.Undo()
	if _, refused := h.Reply(use.Line(0)); refused != nil || len(h.known) != 0 {
		t.Errorf("what was taken back is remembered: %+v", refused)
	}
}

// TestFound has the key be that body's of which a stream has a line, or may have one, whoever has another one by then.
func TestFound(t *testing.T) {
	h := hold(t)
	late := h.begin("a", "one")
	early := Line{key: late.body.key}
	h.Find(early, time.Now())
	if err := h.Send(late.Line(0)); !errors.Is(err, ErrOther) {
		t.Errorf("what came too late is sent: %v", err)
	}
	late.End()
	if h.known[early.key] == nil || h.Owns(early) != nil {
		t.Error("the first body has lost its key")
	}
	sent := h.begin("b", "two")
	if err := h.Send(sent.Line(0)); err != nil {
		t.Fatal(err)
	}
	sent.End()
	if _, err := h.Begin(context.Background(), sent.body.key, []byte("three")); !errors.Is(err, ErrOther) {
		t.Errorf("another body has the key of one that may be in the stream: %v", err)
	}
	h.Unsent(sent.Line(0))
	h.begin("b", "three").End()
	h.Find(Line{key: Of("", "c")}, time.Now().Add(-Kept))
	h.begin("c", "four").End()
	if len(h.known) != 1 || len(h.order) != 1 {
		t.Errorf("%d keys are known", len(h.known))
	}
}

// TestWritten writes lines and reads them again; what else there is is none.
func TestWritten(t *testing.T) {
	l := Line{key: Of("", "a"), number: 63}
	written := l.String()
	if again, ok := Parse(written); !ok || again != l || again.Word() != l.Word() || l.Next(1).Word() == l.Word() {
		t.Errorf("%s is read as %v", written, again)
	}
	short := written[:len(written)-2]
	for _, other := range []string{"", written + " ", written + "0000", written[1:], "x" + written[1:], short + "+1"} {
		if l, ok := Parse(other); ok {
			t.Errorf("%q is read as %v", other, l)
		}
	}
}
