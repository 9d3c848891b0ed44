package spool

import (
	"bytes"
	"context"
	"errors"
	"io"
	"os"
	"path/filepath"
	"testing"
	"time"
)

// filled is a file that has so many bytes.
func filled(t *testing.T, s *Spool, bytes int) *File {
	t.Helper()
	f, err := s.File()
	if err != nil {
		t.Fatal(err)
	}
	if n, err := f.Write(make([]byte, bytes)); n != bytes || err != nil {
		t.Fatalf("%d of %d bytes are written: %v", n, bytes, err)
	}
	return f
}

// TestRoom fills a spool: one more waits until a file is given back by all who have it.
func TestRoom(t *testing.T) {
	s := New(t.TempDir(), 10)
	first := filled(t, s, 4)
	if err := s.Await(context.Background()); err != nil {
		t.Fatal(err)
	}
	second := filled(t, s, 10)
	if s.Used() != 14 {
		t.Errorf("%d bytes wait", s.Used())
	}
	late, cancel := context.WithTimeout(context.Background(), 20*time.Millisecond)
	defer cancel()
	if err := s.Await(late); !errors.Is(err, context.DeadlineExceeded) {
		t.Errorf("while it is full one more has room: %v", err)
	}
	waits := make(chan error, 1)
	go func() { waits <- s.Await(context.Background()) }()
	second.Share()
	second.Close()
	select {
	case <-waits:
		t.Error("one more has room while another has the file")
	case <-time.After(20 * time.Millisecond):
	}
	second.Close()
	if err := <-waits; err != nil || s.Used() != 4 {
		t.Errorf("%d bytes wait: %v", s.Used(), err)
	}
	first.Close()
}

// TestFile writes a reply in parts and reads it twice; one that is longer than all may be is refused, and no file has a
// name.
func TestFile(t *testing.T) {
	path := t.TempDir()
	s := New(path, 10)
	f := filled(t, s, 0)
	for _, part := range []string{"ab", "", "cde"} {
		if _, err := f.Write([]byte(part)); err != nil {
			t.Fatal(err)
		}
	}
	for i := 0; i < 2; i++ {
		if content, err := io.ReadAll(f.Reader()); err != nil || !bytes.Equal(content, []byte("abcde")) || f.Size() != 5 {
			t.Errorf("it has %q of %d bytes: %v", content, f.Size(), err)
		}
	}
	if _, err := f.Write(make([]byte, 6)); !errors.Is(err, ErrFull) || s.Used() != 5 {
		t.Errorf("%d bytes wait: %v", s.Used(), err)
	}
	if files, err := os.ReadDir(path); err != nil || len(files) > 0 {
		t.Errorf("the folder has %v, %v", files, err)
	}
	f.Close()
}

// TestClear takes away files of a process that was killed, and no others.
func TestClear(t *testing.T) {
	path := t.TempDir()
	for _, name := range []string{fileName + "1", "keys"} {
		if err := os.WriteFile(filepath.Join(path, name), nil, 0o600); err != nil {
			t.Fatal(err)
		}
	}
	if err := New(path, 1).Clear(); err != nil {
		t.Fatal(err)
	}
	if files, err := os.ReadDir(path); err != nil || len(files) != 1 || files[0].Name() != "keys" {
		t.Errorf("the folder has %v, %v", files, err)
	}
}
