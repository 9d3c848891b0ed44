package line

import (
	"bufio"
	"errors"
	"io"
)

// ErrTooLong says that a line has more bytes than Limit. It was read to its end.
var ErrTooLong = errors.New("the line is too long")

// Reader reads lines as the program does.
type Reader struct {
	from *bufio.Reader
}

// NewReader reads lines from a reader.
func NewReader(from io.Reader) *Reader {
	return &Reader{from: bufio.NewReaderSize(from, 1<<16)}
}

// Next is the next line, without its newline, and the caller's. What stands behind the last newline is a line if it
// has a byte and the end is a proper one; where reading breaks off it is none.
func (r *Reader) Next() ([]byte, error) {
	var l []byte
	tooLong := false
	for {
		part, err := r.from.ReadSlice('\n')
		if err == nil {
			part = part[:len(part)-1]
		}
		if tooLong = tooLong || len(l)+len(part) > Limit; !tooLong {
			l = append(l, part...)
		}
		switch {
		case err == bufio.ErrBufferFull:
			continue
		case err != nil && err != io.EOF:
			return nil, err
		case tooLong:
			return nil, ErrTooLong
		case err == io.EOF && len(l) == 0:
			return nil, io.EOF
		}
		if l == nil {
			l = []byte{}
		}
		return l, nil
	}
}
