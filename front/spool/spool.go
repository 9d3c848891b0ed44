// Package spool has long replies wait in files, and not in memory, until their clients have read them.
package spool

import (
	"context"
	"errors"
	"fmt"
	"io"
	"os"
	"path/filepath"
	"sync"
	"sync/atomic"
)

// fileName is how files are named for the moment in which they have a name.
const fileName = "spool-"

// ErrFull says that a reply alone is longer than all may be together.
var ErrFull = errors.New("the reply is longer than --spool-bytes")

// Spool is the files of all replies. They have no name, so that none outlives the process.
type Spool struct {
	folder string
	most   int64
	mutex  sync.Mutex
	used   int64
	freed  chan struct{} // closed when there is more room
}

// New has files in a folder, of so many bytes together; the last of them may go beyond.
func New(folder string, most int64) *Spool {
	return &Spool{folder: folder, most: most, freed: make(chan struct{})}
}

// Clear takes away files whose name a process left that was killed while they had one.
func (s *Spool) Clear() error {
	left, err := filepath.Glob(filepath.Join(s.folder, fileName+"*"))
	if err != nil {
		return fmt.Errorf("files of replies: %w", err)
	}
	for _, name := range left {
		if err := os.Remove(name); err != nil {
			return fmt.Errorf("files of replies: %w", err)
		}
	}
	return nil
}

// Await waits until there is room for one more reply.
func (s *Spool) Await(ctx context.Context) error {
	for {
		s.mutex.Lock()
		full, freed := s.used >= s.most, s.freed
		s.mutex.Unlock()
		if !full {
			return nil
		}
		select {
		case <-freed:
		case <-ctx.Done():
			return ctx.Err()
		}
	}
}

// Full says whether there is no room for one more.
func (s *Spool) Full() bool { return s.Used() >= s.most }

// Used is how many bytes wait in files.
func (s *Spool) Used() int64 {
	s.mutex.Lock()
	defer s.mutex.Unlock()
	return s.used
}

// take counts bytes more, or fewer.
func (s *Spool) take(bytes int64) {
	s.mutex.Lock()
	defer s.mutex.Unlock()
	if s.used += bytes; bytes < 0 {
		close(s.freed)
		s.freed = make(chan struct{})
	}
}

// File is the rest of a reply. One goroutine writes it, and then any number read it.
type File struct {
	spool *Spool
	file  *os.File
	size  int64
	users atomic.Int64
}

// File makes a file for the reply that comes.
func (s *Spool) File() (*File, error) {
	file, err := os.CreateTemp(s.folder, fileName)
	if err != nil {
		return nil, fmt.Errorf("a file for a reply: %w", err)
	}
	// Another front that clears the same folder may have taken the name away.
	if err := os.Remove(file.Name()); err != nil && !errors.Is(err, os.ErrNotExist) {
		file.Close()
		return nil, fmt.Errorf("a file for a reply: %w", err)
	}
	f := &File{spool: s, file: file}
	f.users.Store(1)
	return f, nil
}

// Write adds what comes.
func (f *File) Write(b []byte) (int, error) {
	if f.size+int64(len(b)) > f.spool.most {
		return 0, ErrFull
	}
	f.spool.take(int64(len(b)))
	n, err := f.file.WriteAt(b, f.size)
	f.size += int64(n)
	if n < len(b) {
		f.spool.take(int64(n - len(b)))
	}
	return n, err
}

// Size is how many bytes were written.
func (f *File) Size() int64 { return f.size }

// End changes the end of the file, before anybody reads it: of its last bytes as many as they are at most, `change`
// says how many stay and what stands behind them.
func (f *File) End(most int, change func(end []byte) (stay int, behind []byte, ok bool)) error {
	from := f.size - int64(most)
	if from < 0 {
		from = 0
	}
	end := make([]byte, f.size-from)
	if _, err := f.file.ReadAt(end, from); err != nil {
		return fmt.Errorf("the end of a reply: %w", err)
	}
	stay, behind, ok := change(end)
	if !ok {
		return errors.New("the end of a reply isn't as it is known")
	}
	f.spool.take(from + int64(stay) - f.size)
	f.size = from + int64(stay)
	_, err := f.Write(behind)
	return err
}

// Reader reads all from its beginning on.
func (f *File) Reader() io.Reader { return io.NewSectionReader(f.file, 0, f.size) }

// Share says that one more has the file.
func (f *File) Share() { f.users.Add(1) }

// Close gives the file back; with the last who had it it goes.
func (f *File) Close() {
	if f.users.Add(-1) == 0 {
		f.file.Close()
		f.spool.take(-f.size)
	}
}
