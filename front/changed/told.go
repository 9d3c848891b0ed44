package changed

import (
	"bytes"
	"encoding/json"
	"errors"
)

// told reads the reply to `notices` as it comes, and calls for each request.
type told struct {
	call  func(person, action, resource []byte, before, after Decision) error
	held  []byte // what came and wasn't whole
	begun bool
	ended bool
	other []byte // the beginning of what isn't such a reply
}

// otherBytes is how much is kept of a reply that is another one.
const otherBytes = 200

var (
	beginsTold = []byte(`{"notices":[`)
	endsTold   = []byte(`]}`)
	errMore    = errors.New("there is more to come")
	errTold    = errors.New("what changed isn't told as it is known")
)

// Write takes a part of the reply.
func (t *told) Write(part []byte) (int, error) {
	if t.other != nil {
		return len(part), nil
	}
	t.held = append(t.held, part...)
	rest, err := t.read(t.held)
	t.held = append(t.held[:0], rest...)
	if err == errMore {
		err = nil
	}
	return len(part), err
}

// Other is the beginning of the reply where it isn't one that tells what changed, or didn't come whole.
func (t *told) Other() ([]byte, bool) {
	if t.ended && len(t.held) == 0 {
		return nil, false
	}
	return append(t.other, t.held...), true
}

// read reads what is whole, and gives what isn't.
func (t *told) read(l []byte) ([]byte, error) {
	if !t.begun {
		if !bytes.HasPrefix(l, beginsTold[:min(len(l), len(beginsTold))]) {
			t.other = append([]byte{}, l[:min(len(l), otherBytes)]...)
			return nil, nil
		}
		if len(l) < len(beginsTold) {
			return l, errMore
		}
		t.begun, l = true, l[len(beginsTold):]
	}
	for len(l) > 0 && !t.ended {
		if l[0] == endsTold[0] {
			if len(l) < len(endsTold) {
				return l, errMore
			}
			if !bytes.HasPrefix(l, endsTold) {
				return nil, errTold
			}
			t.ended, l = true, l[len(endsTold):]
			break
		}
		rest, err := t.one(l)
		if err != nil {
			return l, err
		}
		l = rest
	}
	return l, nil
}

// one reads an object, with the comma before it.
func (t *told) one(l []byte) ([]byte, error) {
	if l[0] == ',' {
		l = l[1:]
	}
	r := reader{rest: l}
	r.word(`{"action":`)
	action := r.text()
	r.word(`,"after":`)
	after := r.decision()
	r.word(`,"before":`)
	before := r.decision()
	r.word(`,"person":`)
	person := r.text()
	r.word(`,"resource":`)
	resource := r.text()
	r.word(`}`)
	if r.err != nil {
		return nil, r.err
	}
	return r.rest, t.call(person, action, resource, before, after)
}

// reader reads the parts of an object; behind the first that isn't as it is known it reads no more.
type reader struct {
	rest []byte
	err  error
}

// word passes over what has to stand there.
func (r *reader) word(word string) {
	if r.err != nil {
		return
	}
	switch {
	case len(r.rest) >= len(word) && string(r.rest[:len(word)]) == word:
		r.rest = r.rest[len(word):]
	case len(r.rest) < len(word) && word[:len(r.rest)] == string(r.rest):
		r.err = errMore
	default:
		r.err = errTold
	}
}

// text is what stands between the quotes of a text.
func (r *reader) text() []byte {
	r.word(`"`)
	if r.err != nil {
		return nil
	}
	for at := 0; at < len(r.rest); at++ {
		switch r.rest[at] {
		case '\\':
			at++
		case '"':
			found := r.rest[:at]
			r.rest = r.rest[at+1:]
			return found
		}
	}
	r.err = errMore
	return nil
}

// decision is a decision, or null.
func (r *reader) decision() Decision {
	if r.err == nil && len(r.rest) > 0 && r.rest[0] == 'n' {
		r.word("null")
		return None
	}
	word := r.text()
	if r.err != nil {
		return None
	}
	for i := 1; i < len(decisions); i++ {
		if string(word) == decisions[i] {
			return Decision(i)
		}
	}
	r.err = errTold
	return None
}

// Plain is a name as it is, of one that is written as between the quotes of JSON.
func Plain(written string) string {
	if bytes.IndexByte([]byte(written), '\\') < 0 {
		return written
	}
	var name string
	if json.Unmarshal([]byte(`"`+written+`"`), &name) != nil {
		return written
	}
	return name
}
