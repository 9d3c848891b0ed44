package campaigns

import (
	"bytes"
	"errors"
)

// cellsTold reads the reply to the question for cells as it comes, and calls for each.
type cellsTold struct {
	call  func(Cell, *Answer) error
	held  []byte // what came and wasn't whole
	begun bool
	ended bool
}

var (
	beginsCells = []byte(`{"cells":[`)
	errMore     = errors.New("there is more to come")
	errCells    = errors.New("cells aren't told as they are known")
)

// Write takes a part of the reply.
func (t *cellsTold) Write(part []byte) (int, error) {
	t.held = append(t.held, part...)
	rest, err := t.read(t.held)
	t.held = append(t.held[:0], rest...)
	if err == errMore {
		err = nil
	}
	return len(part), err
}

// read reads what is whole, and gives what isn't.
func (t *cellsTold) read(l []byte) ([]byte, error) {
	if !t.begun {
		if len(l) < len(beginsCells) {
			return l, errMore
		}
		if !bytes.HasPrefix(l, beginsCells) {
			return l, errCells
		}
		t.begun, l = true, l[len(beginsCells):]
	}
	for len(l) > 0 && !t.ended {
		if l[0] == ']' {
			if len(l) < 2 {
				return l, errMore
			}
			t.ended = true
			return l[2:], nil
		}
		rest, err := t.one(l)
		if err != nil {
			return l, err
		}
		l = rest
	}
	return l, nil
}

// one reads a cell, with the comma before it.
func (t *cellsTold) one(l []byte) ([]byte, error) {
	if l[0] == ',' {
		l = l[1:]
	}
	end, err := valueEnd(l)
	if err != nil {
		return nil, err
	}
	r := cellReader{rest: l[:end]}
	var cell Cell
	a := &Answer{}
	cell.Action = r.text(`{"action":`)
	a.Advice = r.value(`,"advice":`)
	a.Decision = r.value(`,"decision":`)
	a.Obligations = r.value(`,"obligations":`)
	cell.Person = r.text(`,"person":`)
	cell.Resource = r.text(`,"resource":`)
	a.Status = r.value(`,"status":`)
	a.Why = r.value(`,"why":`)
	if string(r.rest) != "}" {
		return nil, errCells
	}
	return l[end:], t.call(cell, a)
}

// cellReader reads the parts of a cell; behind the first that isn't as it is known it reads no more.
type cellReader struct{ rest []byte }

// value is what stands behind a key.
func (r *cellReader) value(key string) []byte {
	if !bytes.HasPrefix(r.rest, []byte(key)) {
		r.rest = nil
		return nil
	}
	end, err := valueEnd(r.rest[len(key):])
	if err != nil {
		r.rest = nil
		return nil
	}
	found := r.rest[len(key) : len(key)+end]
	r.rest = r.rest[len(key)+end:]
	return found
}

// text is what stands between the quotes of the text behind a key.
func (r *cellReader) text(key string) string {
	found := r.value(key)
	if len(found) < 2 || found[0] != '"' {
		r.rest = nil
		return ""
	}
	return string(found[1 : len(found)-1])
}

// valueEnd is where a value of JSON ends that stands at the beginning.
func valueEnd(l []byte) (int, error) {
	depth := 0
	for at := 0; at < len(l); at++ {
		switch l[at] {
		case '{', '[':
			depth++
		case '}', ']':
			if depth--; depth == 0 {
				return at + 1, nil
			} else if depth < 0 {
				return at, nil
			}
		case '"':
			for at++; at < len(l) && l[at] != '"'; at++ {
				if l[at] == '\\' {
					at++
				}
			}
			if depth == 0 && at < len(l) {
				return at + 1, nil
			}
		case ',':
			if depth == 0 {
				return at, nil
			}
		}
	}
	return 0, errMore
}
