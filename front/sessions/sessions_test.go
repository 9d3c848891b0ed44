package sessions

import (
	"context"
	"errors"
	"reflect"
	"testing"
	"time"
)

// marked marks for a client at a serial.
func marked(t *testing.T, client *Client, number int, at uint64) *Session {
	t.Helper()
	session, err := client.Marking(number)
	if err != nil {
		t.Fatal(err)
	}
	session.Settled(at, true)
	return session
}

// at sees at which serial a client marked, or that he didn't.
func at(t *testing.T, client *Client, number int, serial uint64, there bool) {
	t.Helper()
	session := client.Noticing(number)
	if session == nil {
		if there {
			t.Errorf("at number %d there is no session", number)
		}
		return
	}
	if got, marked, err := session.At(context.Background()); err != nil || marked != there || marked && got != serial {
		t.Errorf("at number %d the mark is %d, %v, %v", number, got, marked, err)
	}
}

// TestMarks marks for two clients at the same number: each has his own mark, and the oldest counts until it goes.
func TestMarks(t *testing.T) {
	table := NewTable(99)
	first, second := table.NewClient(), table.NewClient()
	if table.Oldest(0, 99) != 99 {
		t.Error("there is a mark")
	}
	marked(t, first, 3, 7)
	marked(t, second, 3, 5)
	marked(t, second, 4, 9)
	at(t, first, 3, 7, true)
	at(t, second, 3, 5, true)
	at(t, first, 4, 0, false)
	if table.Oldest(0, 99) != 5 || table.Taken() != 3 {
		t.Errorf("the oldest of %d is %d", table.Taken(), table.Oldest(0, 99))
	}
	marked(t, second, 3, 10)
	if table.Oldest(0, 99) != 7 {
		t.Errorf("the oldest is %d", table.Oldest(0, 99))
	}
	first.Close()
	if table.Oldest(0, 99) != 9 || table.Taken() != 2 {
		t.Errorf("the oldest of %d is %d", table.Taken(), table.Oldest(0, 99))
	}
	if _, err := first.Marking(3); !errors.Is(err, ErrGone) {
		t.Errorf("who has gone marks: %v", err)
	}
	for _, one := range [][2]uint64{{8, 9}, {10, 10}, {11, 99}} {
		if oldest := table.Oldest(one[0], 99); oldest != one[1] {
			t.Errorf("from serial %d on the oldest is %d", one[0], oldest)
		}
	}
}

// TestDue asks for a mark that is on its way: it is waited for, and one that gets no reply leaves the one before.
func TestDue(t *testing.T) {
	client := NewTable(99).NewClient()
	session := marked(t, client, 0, 3)
	if _, err := client.Marking(0); err != nil {
		t.Fatal(err)
	}
	short, cancel := context.WithTimeout(context.Background(), 20*time.Millisecond)
	defer cancel()
	if _, _, err := session.At(short); !errors.Is(err, context.DeadlineExceeded) {
		t.Errorf("a mark on its way isn't waited for: %v", err)
	}
	go session.Settled(0, false)
	at(t, client, 0, 3, true)
}

// TestMost takes as many sessions as there are; one that is given back is had by the next.
func TestMost(t *testing.T) {
	table := NewTable(2)
	first, late := table.NewClient(), table.NewClient()
	marked(t, first, 0, 1)
	marked(t, first, 1, 1)
	if _, err := late.Marking(3); !errors.Is(err, ErrTaken) {
		t.Fatalf("one more is given: %v", err)
	}
	first.Close()
	if _, err := late.Marking(3); err != nil {
		t.Error(err)
	}
}

// memory remembers who came and went.
type memory struct{ came, gone []string }

func (m *memory) Remember(name string) { m.came = append(m.came, name) }

func (m *memory) Forget(name string) { m.gone = append(m.gone, name) }

// TestRestore has clients of before a start: they stay, for a while, and whoever never marked isn't there.
func TestRestore(t *testing.T) {
	table := NewTable(99)
	var kept memory
	leases := NewLeases(table, 20*time.Millisecond, &kept)
	table.Restore(map[string]map[int]uint64{"a": {0: 5, 3: 6}})
	client, done, ok := leases.Use("a")
	if !ok {
		t.Fatal("who was there isn't")
	}
	at(t, client, 0, 5, true)
	at(t, client, 3, 6, true)
	if name, number, stays := client.Noticing(3).Stays(); name != "a" || number != 3 || !stays || table.Oldest(0, 9) != 5 {
		t.Errorf("he is %s, %d, %v", name, number, stays)
	}
	done()
	time.Sleep(40 * time.Millisecond)
	if leases.Sweep(); len(kept.gone) != 1 || kept.gone[0] != "a" || table.Taken() != 0 {
		t.Errorf("%v have gone", kept.gone)
	}
}

// TestLeases opens a lease, uses it past its time, leaves it idle, and ends another.
func TestLeases(t *testing.T) {
	table := NewTable(99)
	var kept memory
	leases := NewLeases(table, 20*time.Millisecond, &kept)
	name, err := leases.Open()
	if err != nil {
		t.Fatal(err)
	}
	_, done, ok := leases.Use(name)
	time.Sleep(40 * time.Millisecond)
	leases.Sweep()
	if !ok || table.Taken() != 1 {
		t.Fatal("a lease ends while it is used")
	}
	done()
	time.Sleep(40 * time.Millisecond)
	leases.Sweep()
	if table.Taken() != 0 {
		t.Error("a lease that nobody uses doesn't end")
	}
	if _, _, ok := leases.Use(name); ok {
		t.Error("a lease that has ended is used")
	}
	other, err := leases.Open()
	if err != nil || other == name {
		t.Fatalf("another lease has the name %s, %v", other, err)
	}
	if !leases.End(other) || leases.End(other) || table.Taken() != 0 || len(kept.came) != 2 || len(kept.gone) != 2 {
		t.Errorf("a lease isn't ended once, %v", kept)
	}
}

// TestIdle opens three leases and uses the first: they end in the order in which they were used last.
func TestIdle(t *testing.T) {
	var kept memory
	leases := NewLeases(NewTable(99), time.Hour, &kept)
	for i := 0; i < 3; i++ {
		if _, err := leases.Open(); err != nil {
			t.Fatal(err)
		}
	}
	_, done, _ := leases.Use(kept.came[0])
	done()
	leases.sweep(time.Now())
	if len(kept.gone) > 0 {
		t.Errorf("%v have ended", kept.gone)
	}
	leases.sweep(time.Now().Add(2 * time.Hour))
	if want := []string{kept.came[1], kept.came[2], kept.came[0]}; !reflect.DeepEqual(kept.gone, want) {
		t.Errorf("%v end, and not %v", kept.gone, want)
	}
}
