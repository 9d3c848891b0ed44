package sessions

import (
	"container/heap"
	"math"
)

// order has the serials of marks, so that the oldest is found without a look at all of them.
type order struct {
	serials serials
	counts  map[uint64]int // how many marks each of these has, which may be none any more
	none    int            // how many have none
	from    uint64         // those of marks before it may be missing
}

func newOrder() *order { return &order{counts: map[uint64]int{}} }

// add counts a mark.
func (o *order) add(serial uint64) {
	count, there := o.counts[serial]
	switch {
	case !there:
		heap.Push(&o.serials, serial)
	case count == 0:
		o.none--
	}
	o.counts[serial] = count + 1
}

// drop counts a mark less. Serials without a mark stay until there are as many of them as of others.
func (o *order) drop(serial uint64) {
	count, there := o.counts[serial]
	if !there || count == 0 {
		return // it is before those that are here
	}
	if o.counts[serial] = count - 1; count > 1 {
		return
	}
	if o.none++; o.none <= len(o.counts)/2 {
		return
	}
	kept := o.serials[:0]
	for _, serial := range o.serials {
		if o.counts[serial] > 0 {
			kept = append(kept, serial)
		} else {
			delete(o.counts, serial)
		}
	}
	o.serials, o.none = kept, 0
	heap.Init(&o.serials)
}

// move counts the mark of a session at another serial.
func (o *order) move(s *Session, to uint64) {
	if s.marked {
		o.drop(s.at)
	}
	o.add(to)
}

// oldest is the serial of the oldest mark that isn't before `from`. What is asked for once goes on from there.
func (o *order) oldest(from uint64) uint64 {
	if from > o.from {
		o.from = from
	}
	for len(o.serials) > 0 {
		first := o.serials[0]
		if first >= from && o.counts[first] > 0 {
			return first
		}
		if o.counts[first] == 0 {
			o.none--
		}
		heap.Pop(&o.serials)
		delete(o.counts, first)
	}
	return math.MaxUint64
}

// serials are a heap whose first is the least.
type serials []uint64

func (s serials) Len() int           { return len(s) }
func (s serials) Less(i, j int) bool { return s[i] < s[j] }
func (s serials) Swap(i, j int)      { s[i], s[j] = s[j], s[i] }

// Push adds one.
func (s *serials) Push(one any) { *s = append(*s, one.(uint64)) }

// Pop takes the last one away.
func (s *serials) Pop() any {
	last := len(*s) - 1
	one := (*s)[last]
	*s = (*s)[:last]
	return one
}
