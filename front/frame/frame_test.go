package frame

import (
	"bytes"
	"errors"
	"io"
	"testing"
)

// read reads all records of some bytes, and how they end.
func read(content []byte) ([]string, error) {
	records := NewReader(bytes.NewReader(content), "a file")
	var all []string
	for {
		record, err := records.Next()
		if err != nil {
			return all, err
		}
		all = append(all, string(record))
	}
}

// TestEach cuts and changes three records at each byte: a cut leaves whole records and is told as such, and a
// change is damage.
func TestEach(t *testing.T) {
	var content []byte
	var ends []int
	for _, record := range []string{`{"a":1}`, ``, "b\nc"} {
		content = Append(content, []byte(record))
		ends = append(ends, len(content))
	}
	if all, err := read(content); err != io.EOF || len(all) != 3 {
		t.Fatalf("there are %q, %v", all, err)
	}
	for at := range content {
		all, err := read(content[:at])
		whole, clean := 0, at == 0
		for _, end := range ends {
			if end <= at {
				whole++
			}
			clean = clean || end == at
		}
		if len(all) != whole || clean != (err == io.EOF) || !clean && !errors.Is(err, ErrTorn) {
			t.Fatalf("cut at %d there are %q, %v", at, all, err)
		}
		for flip := 1; flip < 256; flip++ {
			changed := append([]byte(nil), content...)
			changed[at] ^= byte(flip)
			var damage *Damage
			if _, err := read(changed); !errors.As(err, &damage) {
				t.Fatalf("byte %d changed by %x: %v", at, flip, err)
			}
		}
	}
}

// TestZeros reads records with zeros behind them.
func TestZeros(t *testing.T) {
	content := Append(nil, []byte("a"))
	for _, zeros := range []int{1, 26, 27, 28, 4096} {
		if all, err := read(append(append([]byte(nil), content...), make([]byte, zeros)...)); len(all) != 1 || !errors.Is(err, ErrTorn) {
			t.Errorf("%d zeros: %q, %v", zeros, all, err)
		}
	}
	var damage *Damage
	if _, err := read(append(append(append([]byte(nil), content...), make([]byte, 100)...), 'x')); !errors.As(err, &damage) {
		t.Errorf("something behind zeros: %v", err)
	}
}
