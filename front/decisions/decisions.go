// Package decisions writes down what was decided: a line of JSON for each decision, in files that begin anew each day
// and when they are full. A decision is on the disk a while after it was kept. Before the oldest has waited a second no
// other is kept, so that whatever dies, what is lost was decided within one second.
package decisions

import (
	"bytes"
	"encoding/json"
	"fmt"
	"os"
	"path/filepath"
	"regexp"
	"strconv"
	"sync"
	"sync/atomic"
	"time"

	"review-front/logs"
)

const (
	// pause is how long what was decided waits at most before it is written.
	pause = 500 * time.Millisecond
	// soon is how much waits before it is written at once.
	soon = 1 << 20
	// longest is how long a decision waits for the disk before no other is kept.
	longest = time.Second
	// dayBegins and dayEnds are where a line has its day.
	dayBegins = len(`{"time":"`)
	dayEnds   = dayBegins + len("2006-01-02")
)

// Decision is what was decided.
type Decision struct {
	Time     time.Time
	By       string // who asked
	Path     string // where
	Trace    string // the traceparent of the request, if it has one
	Serial   uint64 // how many edits stood behind the state
	Request  []byte // JSON
	Response []byte // JSON
}

// line is a decision as it is written. Its time has a fixed length.
type line struct {
	Time     string          `json:"time"`
	By       string          `json:"by"`
	Path     string          `json:"path"`
	Trace    string          `json:"traceparent,omitempty"`
	Serial   uint64          `json:"serial"`
	Request  json.RawMessage `json:"request"`
	Response json.RawMessage `json:"response"`
}

// Book is where decisions are written down. A nil one writes nothing.
type Book struct {
	folder string
	size   int64 // how long a file is at most, unless one decision is longer
	log    *logs.Log

	mutex   sync.Mutex
	freed   *sync.Cond
	waiting []byte
	since   time.Time // since when the oldest waits
	writing time.Time // since when the oldest of those waited that are being written; zero while none are
	wanted  chan struct{}
	ending  chan struct{}
	ended   chan struct{}

	// For the goroutine that writes.
	file    *os.File
	day     string
	length  int64  // of the file
	number  uint64 // of the newest file
	failing bool

	kept, lost atomic.Uint64
}

var namePattern = regexp.MustCompile(`^\d{4}-\d\d-\d\d\.(\d{9})\.jsonl$`)

// Open begins to write into a folder, which is made if it isn't there. Files that are there stay as they are.
func Open(folder string, size int64, log *logs.Log) (*Book, error) {
	if err := os.MkdirAll(folder, 0o700); err != nil {
		return nil, err
	}
	entries, err := os.ReadDir(folder)
	if err != nil {
		return nil, err
	}
	b := &Book{
		folder: folder, size: size, log: log,
		wanted: make(chan struct{}, 1), ending: make(chan struct{}), ended: make(chan struct{}),
	}
	b.freed = sync.NewCond(&b.mutex)
	for _, entry := range entries {
		if found := namePattern.FindStringSubmatch(entry.Name()); found != nil {
			if number, err := strconv.ParseUint(found[1], 10, 64); err == nil && number > b.number {
				b.number = number
			}
		}
	}
	go b.run()
	return b, nil
}

// Keep has a decision written down soon.
func (b *Book) Keep(one Decision) {
	if b == nil {
		return
	}
	written, err := json.Marshal(line{
		Time: one.Time.UTC().Format("2006-01-02T15:04:05.000000Z"), By: one.By, Path: one.Path, Trace: one.Trace,
		Serial: one.Serial, Request: one.Request, Response: one.Response,
	})
	if err != nil {
		b.log.Error("a decision can't be written", "error", err)
		b.lost.Add(1)
		return
	}
	b.mutex.Lock()
	defer b.mutex.Unlock()
	for b.isLate() {
		b.freed.Wait()
	}
	if len(b.waiting) == 0 {
		b.since = time.Now()
	}
	b.waiting = append(append(b.waiting, written...), '\n')
	if len(b.waiting) > soon {
		select {
		case b.wanted <- struct{}{}:
		default:
		}
	}
}

// isLate says whether a decision has waited so long that no other is kept.
func (b *Book) isLate() bool {
	return !b.writing.IsZero() && time.Since(b.writing) > longest || len(b.waiting) > 0 && time.Since(b.since) > longest
}

// Close writes what waits, and ends.
func (b *Book) Close() {
	if b == nil {
		return
	}
	close(b.ending)
	<-b.ended
}

// Kept is how many decisions were written.
func (b *Book) Kept() uint64 { return b.kept.Load() }

// Lost is how many decisions couldn't be written.
func (b *Book) Lost() uint64 { return b.lost.Load() }

// run writes what waits, from time to time.
func (b *Book) run() {
	defer close(b.ended)
	tick := time.NewTicker(pause)
	defer tick.Stop()
	for over := false; !over; {
		select {
		case <-tick.C:
		case <-b.wanted:
		case <-b.ending:
			over = true
		}
		b.flush()
	}
	if b.file != nil {
		_ = b.file.Close()
	}
}

// flush writes what waits, and brings it to the disk.
func (b *Book) flush() {
	b.mutex.Lock()
	batch := b.waiting
	b.waiting = nil
	if len(batch) > 0 {
		b.writing = b.since
	}
	b.mutex.Unlock()
	defer func() {
		b.mutex.Lock()
		defer b.mutex.Unlock()
		b.writing = time.Time{}
		b.freed.Broadcast()
	}()
	for len(batch) > 0 {
		part := b.part(batch)
		batch = batch[len(part):]
		lines := uint64(bytes.Count(part, []byte("\n")))
		if err := b.write(part); err != nil {
			b.fail(err)
			b.lost.Add(lines)
			continue
		}
		if b.failing {
			b.log.Info("decisions can be written again")
		}
		b.failing = false
		b.kept.Add(lines)
	}
}

// part is as many lines, of one day, as the file has room for; at least one.
func (b *Book) part(batch []byte) []byte {
	room := b.size
	if day := string(batch[dayBegins:dayEnds]); b.file != nil && b.day == day && b.length < b.size {
		room = b.size - b.length
	}
	end := 0
	for end < len(batch) {
		next := end + bytes.IndexByte(batch[end:], '\n') + 1
		isOther := !bytes.Equal(batch[end+dayBegins:end+dayEnds], batch[dayBegins:dayEnds])
		if end > 0 && (int64(next) > room || isOther) {
			break
		}
		end = next
	}
	return batch[:end]
}

// write writes lines of one day, into a new file where the old one is of another or full.
func (b *Book) write(part []byte) error {
	day := string(part[dayBegins:dayEnds])
	if b.file == nil || b.day != day || b.length > 0 && b.length+int64(len(part)) > b.size {
		if err := b.begin(day); err != nil {
			return err
		}
	}
	n, err := b.file.Write(part)
	b.length += int64(n)
	if err != nil {
		return err
	}
	return b.file.Sync()
}

// begin begins a file, whose name is on the disk before anything is in it.
func (b *Book) begin(day string) error {
	if b.file != nil {
		_ = b.file.Close()
		b.file = nil
	}
	b.number++
	name := filepath.Join(b.folder, fmt.Sprintf("%s.%09d.jsonl", day, b.number))
	file, err := os.OpenFile(name, os.O_CREATE|os.O_EXCL|os.O_WRONLY, 0o600)
	if err != nil {
		return err
	}
	b.file, b.day, b.length = file, day, 0
	folder, err := os.Open(b.folder)
	if err != nil {
		return err
	}
	defer folder.Close()
	return folder.Sync()
}

// fail says, once for each time, that decisions can't be written. What follows goes into another file, so that a line
// which was cut off stands at the end of this one; one in which nothing stands doesn't stay.
func (b *Book) fail(err error) {
	if !b.failing {
		b.log.Error("decisions can't be written, and are lost", "error", err)
	}
	b.failing = true
	if b.file == nil {
		return
	}
	_ = b.file.Close()
	if b.length == 0 {
		_ = os.Remove(b.file.Name())
	}
	b.file = nil
}
