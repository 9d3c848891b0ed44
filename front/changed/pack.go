package changed

import (
	"bytes"
	"compress/flate"
	"encoding/binary"
	"fmt"
	"io"
	"time"
)

// deflates is from how many bytes on what an edit changed is written shorter.
const deflates = 256

// names gives each name that stands in a file its number there.
type names struct {
	numbers map[string]uint64
	fresh   []string // those that the record which is being made brings
}

// number is that of a name.
func (n *names) number(name []byte) uint64 {
	if number, there := n.numbers[string(name)]; there {
		return number
	}
	number := uint64(len(n.numbers))
	n.numbers[string(name)] = number
	n.fresh = append(n.fresh, string(name))
	return number
}

// drop forgets the names that no record brought.
func (n *names) drop() {
	for _, name := range n.fresh {
		delete(n.numbers, name)
	}
	n.fresh = nil
}

// Pack takes what an edit changed, as the program tells it, and makes its record.
type Pack struct {
	told
	book *Book
	edit Edit
	body []byte
	last [3]uint64 // the numbers of the request before
	said [3][]byte // its names
	many uint64
}

// add adds a request.
func (p *Pack) add(person, action, resource []byte, before, after Decision) error {
	now := p.last
	for i, name := range [...][]byte{person, action, resource} {
		if p.many == 0 || !bytes.Equal(name, p.said[i]) {
			now[i] = p.book.open.names.number(name)
			p.said[i] = append(p.said[i][:0], name...)
		}
	}
	same := byte(0)
	for i := 0; i < 2; i++ {
		if now[i] == p.last[i] {
			same |= 1 << i
		}
	}
	p.body = append(p.body, same|(byte(before)*byte(len(decisions))+byte(after))<<2)
	for i := range now {
		if i == 2 || now[i] != p.last[i] {
			p.body = appendSigned(p.body, int64(now[i]-p.last[i]))
		}
	}
	p.last = now
	p.many++
	return nil
}

// record makes the record of an edit behind another one, in a file whose names are known.
func record(e Edit, before Edit, n *names, body []byte) ([]byte, error) {
	var head []byte
	head = binary.AppendUvarint(head, e.Serial-before.Serial)
	head = appendSigned(head, e.Time.UnixNano()-before.Time.UnixNano())
	head = binary.AppendUvarint(head, e.Serial-e.Journal)
	head = binary.AppendUvarint(head, uint64(e.Byte))
	head = binary.AppendUvarint(head, e.Count)
	for _, text := range []string{e.By, e.Do, e.Entity} {
		head = binary.AppendUvarint(head, n.number([]byte(text)))
	}
	form := plain
	switch {
	case !e.Known:
		form, body = unknown, nil
	case len(body) > deflates:
		var short bytes.Buffer
		w, err := flate.NewWriter(&short, flate.BestSpeed)
		if err == nil {
			_, err = w.Write(body)
		}
		if err == nil {
			err = w.Close()
		}
		if err != nil {
			return nil, fmt.Errorf("what an edit changed: %w", err)
		}
		form, body = deflated, short.Bytes()
	}
	head = binary.AppendUvarint(head, uint64(len(n.fresh)))
	for _, name := range n.fresh {
		head = binary.AppendUvarint(head, uint64(len(name)))
		head = append(head, name...)
	}
	return append(append(head, byte(form)), body...), nil
}

// appendSigned appends a number that may be less than nothing.
func appendSigned(to []byte, n int64) []byte {
	return binary.AppendUvarint(to, uint64(n<<1)^uint64(n>>63))
}

// unpacker reads the numbers of a record. Behind the first fault it gives nothing.
type unpacker struct {
	rest []byte
	bad  bool
}

func (u *unpacker) number() uint64 {
	n, size := binary.Uvarint(u.rest)
	if size <= 0 {
		u.bad, u.rest = true, nil
		return 0
	}
	u.rest = u.rest[size:]
	return n
}

func (u *unpacker) signed() int64 {
	n := u.number()
	return int64(n>>1) ^ -int64(n&1)
}

func (u *unpacker) bytes(size uint64) []byte {
	if size > uint64(len(u.rest)) {
		u.bad, u.rest = true, nil
		return nil
	}
	found := u.rest[:size]
	u.rest = u.rest[size:]
	return found
}

// unpack reads the record of an edit behind another one, with the names of the records before, to which it adds its
// own.
func unpack(record []byte, before Edit, known *[]string) (Edit, error) {
	u := unpacker{rest: record}
	e := Edit{Serial: before.Serial + u.number()}
	e.Time = time.Unix(0, before.Time.UnixNano()+u.signed()).UTC()
	e.Journal = e.Serial - u.number()
	e.Byte = int64(u.number())
	e.Count = u.number()
	texts := [3]uint64{u.number(), u.number(), u.number()}
	for fresh := u.number(); fresh > 0 && !u.bad; fresh-- {
		*known = append(*known, string(u.bytes(u.number())))
	}
	written := u.bytes(1)
	for _, text := range texts {
		u.bad = u.bad || text >= uint64(len(*known))
	}
	if u.bad || form(written[0]) >= forms {
		return Edit{}, errForm("a record isn't of an edit")
	}
	e.form, e.Known, e.body, e.names = form(written[0]), form(written[0]) != unknown, u.rest, *known
	e.By, e.Do, e.Entity = e.names[texts[0]], e.names[texts[1]], e.names[texts[2]]
	return e, nil
}

// Each calls for each request of which the edit changed the answer, in the order in which the program tells them: by
// the bytes of person, action and resource.
func (e *Edit) Each(call func(Change) error) error {
	u := unpacker{rest: e.body}
	if e.form == deflated {
		body, err := io.ReadAll(flate.NewReader(bytes.NewReader(e.body)))
		if err != nil {
			return errForm("a record can't be made long again")
		}
		u.rest = body
	}
	var last [3]uint64
	for count := uint64(0); count < e.Count && e.Known; count++ {
		first := u.bytes(1)
		if u.bad {
			return errForm("a record ends too soon")
		}
		for i := range last {
			if i == 2 || first[0]&(1<<i) == 0 {
				last[i] += uint64(u.signed())
			}
			u.bad = u.bad || last[i] >= uint64(len(e.names))
		}
		kinds := first[0] >> 2
		if u.bad || int(kinds) >= len(decisions)*len(decisions) {
			return errForm("a request isn't one")
		}
		err := call(Change{
			Person: e.names[last[0]], Action: e.names[last[1]], Resource: e.names[last[2]],
			Before: Decision(kinds / byte(len(decisions))), After: Decision(kinds % byte(len(decisions))),
		})
		if err != nil {
			return err
		}
	}
	return nil
}
