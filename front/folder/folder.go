// Package folder keeps what was accepted: journals of edits and snapshots of states, in one folder that one front
// has at a time.
//
// A journal `journal-N` has the edits from serial N on, up to those of the next one. A snapshot `snapshot-N` has the
// lines of a dump of the state at serial N. Each begins with a head; all are records as package frame has them.
//
// They are a chain: the head of a journal has the checksum of the journal before it, that of a snapshot the checksum of
// its journal up to its serial, and the file `journals` says which journal is the first and which the newest. Each
// record of a journal says up to which byte that was known to be on disk, so that what a crash leaves behind such a
// byte, in whatever order it was written, can be told from damage before it.
package folder

import (
	"errors"
	"fmt"
	"hash"
	"os"
	"path/filepath"
	"sort"
	"strconv"
	"strings"
	"sync"
	"syscall"
	"time"

	"review-front/limits"
)

const (
	journalName  = "journal-"
	snapshotName = "snapshot-"
	asideName    = ".aside"
	// ChangesName begins the names of files of what edits changed, which go where the journals go.
	ChangesName = "changes-"
	// HeadsName is the file of heads of the chain, which goes with them, too.
	HeadsName = "heads"
	digits    = 20
	// lockTime is how long it is tried to have a folder.
	lockTime = 500 * time.Millisecond
)

// ErrTaken says that another front has the folder.
var ErrTaken = errors.New("another front has this folder")

// Folder is a folder of journals and snapshots that this process has alone.
type Folder struct {
	path    string
	lock    *os.File // the folder itself
	mutex   sync.Mutex
	head    Head     // of the journals that are begun
	current *os.File // the journal that edits are appended to
	began   uint64   // the first serial that it has, or would have
	size    int64    // how many bytes of it are on disk
	sum     hash.Hash
	before  *Part  // the end of the journal that has the last edit, or where it begins that of the one before
	first   uint64 // the number of the first journal that has to stand
	checked uint64 // from which journal on Recover has read them
	stream  string // of which the newest journal's edits are, or nothing
	limits  limits.Limits
	chained bool   // whether each journal that stood has its predecessor's checksum
	chain   Chain  // what it is behind the last edit
	links   bool   // whether it is known: the newest journal has one, or there is none
	format  int    // that of journals that are begun, once there was a record that is no edit; else less
	reviews bool   // whether they may have records of campaigns
	last    uint64 // the serial of the last edit that is on disk
	daily   int    // of how many last days a snapshot stays
	broken  error  // why nothing can be written, if so
	sync    func(*os.File) error
}

// Open takes a folder, which is made if it isn't there. The folder itself is locked: there is no file of a lock that
// could be taken away.
func Open(path string) (*Folder, error) {
	if err := os.MkdirAll(path, 0o700); err != nil {
		return nil, fmt.Errorf("the folder of journals: %w", err)
	}
	lock, err := os.Open(path)
	if err != nil {
		return nil, fmt.Errorf("the folder of journals: %w", err)
	}
	if err := take(lock); err != nil {
		lock.Close()
		return nil, fmt.Errorf("%s: %w", path, err)
	}
	f := &Folder{path: path, lock: lock, sync: (*os.File).Sync}
	if err := f.clear(); err != nil {
		f.Close()
		return nil, err
	}
	return f, nil
}

// take locks a folder. A front that was killed just now may have been starting a process, which holds its lock until it
// has become another program: so it is tried for a while.
func take(lock *os.File) error {
	for until := time.Now().Add(lockTime); ; time.Sleep(lockTime / 50) {
		err := syscall.Flock(int(lock.Fd()), syscall.LOCK_EX|syscall.LOCK_NB)
		switch {
		case err == nil || !errors.Is(err, syscall.EWOULDBLOCK):
			return err
		case time.Now().After(until):
			return ErrTaken
		}
	}
}

// SyncBy has edits brought to the disk by something else, as one that fails or takes its time, to see what follows.
func (f *Folder) SyncBy(sync func(*os.File) error) { f.sync = sync }

// clear takes away what was being written aside.
func (f *Folder) clear() error {
	aside, err := filepath.Glob(filepath.Join(f.path, "*"+asideName))
	if err != nil {
		return fmt.Errorf("the folder of journals: %w", err)
	}
	for _, name := range aside {
		if err := os.Remove(name); err != nil {
			return fmt.Errorf("what was written aside: %w", err)
		}
	}
	return nil
}

// Close gives the folder back.
func (f *Folder) Close() {
	f.mutex.Lock()
	defer f.mutex.Unlock()
	if f.current != nil {
		f.current.Close()
		f.current = nil
	}
	f.lock.Close()
}

// Last is the serial of the last edit that is on disk.
func (f *Folder) Last() uint64 {
	f.mutex.Lock()
	defer f.mutex.Unlock()
	return f.last
}

// First is the number of the first journal that has to stand.
func (f *Folder) First() uint64 {
	f.mutex.Lock()
	defer f.mutex.Unlock()
	return f.first
}

// Chained says whether each journal that stood has its predecessor's checksum. Those of the first format have none.
func (f *Folder) Chained() bool { return f.chained }

// Stream is of which stream the edits of the newest journal are, or nothing.
func (f *Folder) Stream() string { return f.stream }

// Limits are those of the program of the newest journal, and nothing where there is none.
func (f *Folder) Limits() limits.Limits { return f.limits }

// numbered lists the numbers of the files of a kind, in their order.
func numbered(path, kind string) ([]uint64, error) {
	files, err := os.ReadDir(path)
	if err != nil {
		return nil, fmt.Errorf("the folder of journals: %w", err)
	}
	var numbers []uint64
	for _, file := range files {
		written := strings.TrimPrefix(file.Name(), kind)
		if len(written) != digits || written == file.Name() {
			continue
		}
		number, err := strconv.ParseUint(written, 10, 64)
		if err != nil {
			continue
		}
		numbers = append(numbers, number)
	}
	sort.Slice(numbers, func(i, j int) bool { return numbers[i] < numbers[j] })
	return numbers, nil
}

// named is where a file of a kind stands.
func named(path, kind string, number uint64) string {
	return filepath.Join(path, fmt.Sprintf("%s%0*d", kind, digits, number))
}

func (f *Folder) journal(number uint64) string { return named(f.path, journalName, number) }

// snapshot is the name of the snapshot of a serial.
func (f *Folder) snapshot(serial uint64) string { return named(f.path, snapshotName, serial) }

// syncFolder sees that names which were made, changed or taken away are on disk.
func (f *Folder) syncFolder() error {
	folder, err := os.Open(f.path)
	if err != nil {
		return fmt.Errorf("the folder of journals: %w", err)
	}
	defer folder.Close()
	if err := folder.Sync(); err != nil {
		return fmt.Errorf("the folder of journals: %w", err)
	}
	return nil
}
