package changed

import (
	"encoding/json"
	"errors"
	"fmt"
	"io"
	"os"
	"strconv"
	"time"

	"review-front/frame"
)

const (
	kind   = "changes"
	format = 1
	// ending begins the last record of a file to which no more is added.
	ending = "end "
	digits = 20
	// endBytes is how long that record is.
	endBytes = 28 + len(ending) + digits + 1 + digits
)

// head is the first record of a file.
type head struct {
	Kind   string    `json:"kind"`
	Format int       `json:"format"`
	After  uint64    `json:"after"` // the serial before its first edit
	Time   time.Time `json:"time"`  // that of its first edit
}

// part is a file, and which edits it has.
type part struct {
	name   string
	after  uint64
	last   uint64
	begins time.Time // when its first edit was made
	ends   time.Time // when its last one was made
	size   int64     // how many bytes of it count
	closed bool      // no more is added
}

// ended is the record that ends a file.
func ended(last uint64, at time.Time) []byte {
	return frame.Append(nil, []byte(fmt.Sprintf("%s%0*d %0*d", ending, digits, last, digits, at.UnixNano())))
}

// isEnd reads the record that ends a file.
func isEnd(record []byte) (last uint64, at time.Time, ok bool) {
	if len(record) != len(ending)+2*digits+1 || string(record[:len(ending)]) != ending {
		return 0, time.Time{}, false
	}
	rest := string(record[len(ending):])
	last, err1 := strconv.ParseUint(rest[:digits], 10, 64)
	nano, err2 := strconv.ParseInt(rest[digits+1:], 10, 64)
	return last, time.Unix(0, nano).UTC(), err1 == nil && err2 == nil
}

// known looks at the head of a file, and at its end if it has one.
func known(name string) (*part, error) {
	file, err := os.Open(name)
	if err != nil {
		return nil, err
	}
	defer file.Close()
	h, err := readHead(frame.NewReader(file, name))
	if err != nil {
		return nil, err
	}
	p := &part{name: name, after: h.After, last: h.After, begins: h.Time, ends: h.Time}
	about, err := file.Stat()
	if err != nil {
		return nil, err
	}
	p.size = about.Size()
	if p.size < int64(endBytes) {
		return p, nil
	}
	record, err := frame.NewReader(io.NewSectionReader(file, p.size-int64(endBytes), int64(endBytes)), name).Next()
	if err != nil {
		return p, nil
	}
	if last, ends, ok := isEnd(record); ok {
		p.last, p.ends, p.closed = last, ends, true
	}
	return p, nil
}

// readHead reads the head of a file.
func readHead(records *frame.Reader) (head, error) {
	var h head
	record, err := records.Next()
	if err != nil {
		return h, err
	}
	if json.Unmarshal(record, &h) != nil || h.Kind != kind || h.Format != format {
		return h, records.Damage("it isn't a file of what edits changed, or of a version that isn't known here")
	}
	return h, nil
}

// errEnough ends a reading that has what it was for.
var errEnough = errors.New("no more is needed")

// read reads a file up to so many bytes, and calls for each edit. It gives the last sound one, where its record ends,
// and the names that stand there: behind an error what came before counts.
func (p *part) read(most int64, call func(*Edit) error) (last Edit, place int64, names []string, err error) {
	file, err := os.Open(p.name)
	if err != nil {
		return Edit{}, 0, nil, err
	}
	defer file.Close()
	records := frame.NewReader(io.LimitReader(file, most), p.name)
	h, err := readHead(records)
	last = Edit{Serial: h.After, Time: h.Time}
	for err == nil {
		place = records.Place()
		var record []byte
		if record, err = records.Next(); err != nil {
			break
		}
		if _, _, is := isEnd(record); is {
			continue
		}
		var next Edit
		if next, err = unpack(record, last, &names); err != nil {
			break
		}
		last = next
		if err = call(&next); err != nil {
			break
		}
	}
	if err == io.EOF || err == errEnough {
		err = nil
	}
	return last, place, names, err
}
