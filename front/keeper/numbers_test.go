package keeper

import (
	"math/rand"
	"testing"
)

// TestNumbers has a program accept edits of which some serials are passed over: each serial leads to as many edits as stand
// up to it.
func TestNumbers(t *testing.T) {
	const begin, first = 5, 20
	random := rand.New(rand.NewSource(1))
	n := from(begin, first)
	serial, owns := uint64(first), map[uint64]uint64{first: begin}
	for own := uint64(begin + 1); own < 1000; own++ {
		for passed := random.Intn(4) / 3 * random.Intn(5); passed > 0; passed-- {
			serial++
			owns[serial] = own - 1
		}
		serial++
		owns[serial] = own
		n.add(serial)
		if n.of(own) != serial || n.own != own {
			t.Fatalf("edit %d is of serial %d, and not %d", own, n.of(own), serial)
		}
	}
	for at, want := range owns {
		if own, known := n.ownOf(at, false, 0); !known || own != want {
			t.Errorf("up to serial %d stand %d, %v, and not %d", at, own, known, want)
		}
	}
	if own, known := n.ownOf(first-1, true, 0); known {
		t.Errorf("before the beginning there are %d edits", own)
	}
	if own, known := n.ownOf(serial+3, false, 0); known {
		t.Errorf("behind the end there are %d edits", own)
	}
	if own, known := n.ownOf(serial+3, true, 0); !known || own != n.own+3 {
		t.Errorf("where nothing is passed over there are %d edits, %v", own, known)
	}
}
