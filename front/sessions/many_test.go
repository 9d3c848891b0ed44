package sessions

import (
	"math"
	"math/rand"
	"testing"
	"time"
)

const (
	// many is how many sessions there are at most unless it is said otherwise.
	many = 100_000
	// uses is how often some of them are used, in so much time: each by itself would be gone through in more.
	uses    = 1_000
	useTime = 5 * time.Second
)

// none forgets who comes and goes.
type none struct{}

func (none) Remember(string) {}

func (none) Forget(string) {}

// TestMany opens as many sessions as there may be, with a mark each: they are used, and mark again, in time that doesn't
// grow with their number; and all end that nobody uses.
func TestMany(t *testing.T) {
	table := NewTable(many)
	leases := NewLeases(table, time.Hour, none{})
	names := make([]string, many)
	for i := range names {
		name, err := leases.Open()
		if err != nil {
			t.Fatalf("session %d: %v", i, err)
		}
		names[i] = name
	}
	if _, err := leases.Open(); err != ErrTaken || table.Taken() != many {
		t.Fatalf("one more than %d is opened: %v", table.Taken(), err)
	}
	began := time.Now()
	for i, name := range names[:uses] {
		client, done, ok := leases.Use(name)
		if !ok {
			t.Fatalf("session %d has ended", i)
		}
		marked(t, client, 0, uint64(i))
		done()
	}
	// Each takes the oldest mark away.
	for i, name := range names[:uses] {
		client, done, _ := leases.Use(name)
		marked(t, client, 0, uint64(uses+i))
		done()
		if oldest, want := table.Oldest(0, math.MaxUint64), uint64(i+1); oldest != want {
			t.Fatalf("the oldest mark is %d, and not %d", oldest, want)
		}
	}
	if took := time.Since(began); took > useTime {
		t.Errorf("%d uses of %d sessions take %v", 2*uses, many, took)
	}
	leases.idle = 0
	time.Sleep(time.Millisecond)
	if leases.Sweep(); table.Taken() != 0 || leases.idles.Len() != 0 || len(leases.held) != 0 {
		t.Errorf("%d are left", table.Taken())
	}
}

// TestOldest has marks come, move and go at random, and compares the oldest with a look at all of them. In the first
// half an old one stays the oldest; then it is asked from some serials on.
func TestOldest(t *testing.T) {
	seed := time.Now().UnixNano()
	random := rand.New(rand.NewSource(seed))
	table := NewTable(many)
	var clients []*Client
	from, serial := uint64(0), uint64(1)
	const steps = 20_000
	marked(t, table.NewClient(), 0, serial) // which stays
	for step := 0; step < steps; step++ {
		serial += uint64(random.Intn(2))
		switch random.Intn(8) {
		case 0:
			clients = append(clients, table.NewClient())
		case 1:
			if len(clients) > 20 {
				at := random.Intn(len(clients))
				clients[at].Close()
				clients = append(clients[:at], clients[at+1:]...)
			}
		case 2:
			if before := uint64(random.Intn(30)); before < serial && step > steps/2 {
				from = serial - before // which may be before what it was
			}
		default:
			if len(clients) > 0 {
				marked(t, clients[random.Intn(len(clients))], random.Intn(3), serial)
			}
		}
		want := uint64(math.MaxUint64)
		for session := range table.held {
			if session.marked && session.at >= from && session.at < want {
				want = session.at
			}
		}
		if oldest := table.Oldest(from, math.MaxUint64); oldest != want {
			t.Fatalf("seed %d, step %d: the oldest from %d on is %d, and not %d", seed, step, from, oldest, want)
		}
		if kept := len(table.order.serials); kept > 2*len(table.held)+2 || kept != len(table.order.counts) {
			t.Fatalf("seed %d, step %d: %d serials are kept for %d sessions", seed, step, kept, len(table.held))
		}
	}
}
