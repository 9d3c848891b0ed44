// Package frame writes records so that a record which a crash cut off can be told from one that was damaged.
//
// A record is one line: three numbers of eight hexadecimal digits each with a blank behind it, its bytes, and a
// newline. The numbers are the length of its bytes, their checksum (CRC-32C), and the checksum of the first two
// numbers. So a file that ends within a record shows that it was cut there, and no change of single bytes looks
// like that.
package frame

import (
	"bufio"
	"bytes"
	"errors"
	"fmt"
	"hash/crc32"
	"io"
	"strconv"
)

const (
	digits = 8
	head   = 3 * (digits + 1)
	// Most is how many bytes a record has at most. A line of the program, and what is said of it, is far below it.
	Most = 1 << 28
)

var table = crc32.MakeTable(crc32.Castagnoli)

// ErrTorn says that a file ends within a record, or has zeros from a record's place on: what a crash leaves.
var ErrTorn = errors.New("the last record was cut off")

// Damage is what no crash leaves.
type Damage struct {
	File  string
	Place int64
	What  string
}

func (d *Damage) Error() string {
	return fmt.Sprintf("%s is damaged at byte %d: %s", d.File, d.Place, d.What)
}

// Append appends the record of some bytes.
func Append(to, record []byte) []byte {
	first := fmt.Sprintf("%08x %08x ", len(record), crc32.Checksum(record, table))
	to = append(to, first...)
	to = append(to, fmt.Sprintf("%08x ", crc32.Checksum([]byte(first), table))...)
	to = append(to, record...)
	return append(to, '\n')
}

// Reader reads records, and knows where each begins.
type Reader struct {
	from  *bufio.Reader
	file  string
	place int64 // where the next record begins
	copy  io.Writer
}

// NewReader reads the records of a file from its beginning.
func NewReader(from io.Reader, file string) *Reader {
	return &Reader{from: bufio.NewReaderSize(from, 1<<15), file: file}
}

// Copy has the bytes of each record that is read whole from now on written to something that takes all, as a checksum.
func (r *Reader) Copy(to io.Writer) { r.copy = to }

// Place is where the next record begins: behind all that was read whole.
func (r *Reader) Place() int64 { return r.place }

// Damage is damage at the place of the next record.
func (r *Reader) Damage(what string) error { return r.damageAt(r.place, what) }

func (r *Reader) damageAt(place int64, what string) error {
	return &Damage{File: r.file, Place: place, What: what}
}

// Next reads a record. At the end it gives io.EOF, of a record that is cut off ErrTorn, and else Damage.
func (r *Reader) Next() ([]byte, error) {
	var first [head]byte
	read, err := io.ReadFull(r.from, first[:])
	switch {
	case err == io.EOF:
		return nil, io.EOF
	case err == io.ErrUnexpectedEOF:
		return nil, r.cut(first[:read])
	case err != nil:
		return nil, fmt.Errorf("%s: %w", r.file, err)
	}
	length, sum, ok := numbers(first[:])
	if !ok {
		if r.zeros(first[:]) {
			return nil, ErrTorn
		}
		return nil, r.Damage("the numbers before a record aren't its own")
	}
	record := make([]byte, length+1)
	if _, err = io.ReadFull(r.from, record); err == io.EOF || err == io.ErrUnexpectedEOF {
		return nil, ErrTorn
	} else if err != nil {
		return nil, fmt.Errorf("%s: %w", r.file, err)
	}
	if record[length] != '\n' || crc32.Checksum(record[:length], table) != sum {
		return nil, r.Damage("a record isn't what its checksum says")
	}
	if r.copy != nil {
		_, _ = r.copy.Write(first[:])
		_, _ = r.copy.Write(record)
	}
	r.place += int64(head + len(record))
	return record[:length], nil
}

// cut judges a file that ends within the numbers before a record: whatever stands there has to be a front of such.
func (r *Reader) cut(part []byte) error {
	for at, b := range part {
		blank := at%(digits+1) == digits
		if blank != (b == ' ') || !blank && !isDigit(b) {
			if bytes.Count(part, []byte{0}) == len(part) {
				return ErrTorn
			}
			return r.Damage("what stands at the end isn't the front of a record")
		}
	}
	return ErrTorn
}

func isDigit(b byte) bool { return b >= '0' && b <= '9' || b >= 'a' && b <= 'f' }

// zeros says whether all from the record's place on is zeros.
func (r *Reader) zeros(first []byte) bool {
	if bytes.Count(first, []byte{0}) != len(first) {
		return false
	}
	for {
		b, err := r.from.ReadByte()
		if err != nil {
			return err == io.EOF
		}
		if b != 0 {
			return false
		}
	}
}

// numbers reads the length and the checksum before a record, where their own checksum is right.
func numbers(first []byte) (length int, sum uint32, ok bool) {
	const end = 2 * (digits + 1)
	read := func(at int) (uint32, bool) {
		written := first[at : at+digits]
		n, err := strconv.ParseUint(string(written), 16, 32)
		return uint32(n), err == nil && string(written) == fmt.Sprintf("%08x", n) && first[at+digits] == ' '
	}
	long, ok1 := read(0)
	sum, ok2 := read(digits + 1)
	own, ok3 := read(end)
	if !ok1 || !ok2 || !ok3 || own != crc32.Checksum(first[:end], table) || long > Most {
		return 0, 0, false
	}
	return int(long), sum, true
}

// Find calls for each whole record that stands somewhere in some bytes, in their order.
func Find(in []byte, call func(record []byte)) {
	for at := 0; at+head < len(in); at++ {
		if in[at+digits] != ' ' || in[at+head-1] != ' ' {
			continue
		}
		length, sum, ok := numbers(in[at : at+head])
		end := at + head + length
		if !ok || end >= len(in) || in[end] != '\n' || crc32.Checksum(in[at+head:end], table) != sum {
			continue
		}
		call(in[at+head : end])
		at = end
	}
}
