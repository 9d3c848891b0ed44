package heads

import (
	"bytes"
	"context"
	"errors"
	"os"
	"sync"
	"time"

	"review-front/folder"
	"review-front/logs"
)

// FileName is the file of a folder in which its heads stand.
const FileName = folder.HeadsName

// dayPause is how often it is looked whether another day has begun.
const dayPause = time.Minute

// Options is what a book works with.
type Options struct {
	Folder *folder.Folder
	Key    *Key // signs heads; nil: they aren't signed
	To     []string
	Put    func(ctx context.Context, to string, line []byte) error // puts a head into a stream
	Log    *logs.Log
}

// Book makes heads, keeps them in a file of the folder, and sends them where they are to be.
type Book struct {
	Options
	mutex   sync.Mutex
	last    Head
	line    []byte // that of the last one
	anew    bool   // whether it isn't signed by the key that signs now
	targets []*target
	done    chan struct{} // closed when Run has ended
}

// Open goes on behind the heads that the folder has.
func Open(options Options) (*Book, error) {
	b := &Book{Options: options, done: make(chan struct{})}
	for _, to := range options.To {
		b.targets = append(b.targets, newTarget(to, options))
	}
	content, err := os.ReadFile(options.Folder.Path(FileName))
	if errors.Is(err, os.ErrNotExist) {
		return b, nil
	}
	if err != nil {
		return nil, err
	}
	// What a crash cut off isn't one.
	content = content[:bytes.LastIndexByte(content, '\n')+1]
	all, err := Read(content)
	if err != nil {
		options.Log.Error("the file of heads isn't sound; more are added behind it", "error", err)
	}
	if len(all) > 0 {
		lines := bytes.Split(bytes.TrimSpace(content), []byte("\n"))
		b.last, b.line = all[len(all)-1], lines[len(lines)-1]
		b.anew = !b.Key.signed(b.last)
	}
	if b.line != nil && !b.anew {
		for _, to := range b.targets {
			to.send(b.line) // nobody knows whether it was sent
		}
	}
	return b, nil
}

// Make makes the head of a serial, unless the last one is of it.
func (b *Book) Make(serial uint64, chain folder.Chain, why string) {
	if b == nil {
		return
	}
	b.mutex.Lock()
	defer b.mutex.Unlock()
	if serial == 0 || b.line != nil && !b.anew && b.last.Serial == serial && b.last.Chain == chain {
		return
	}
	h := b.head(serial, chain, why)
	if b.line != nil {
		h.Before = sumOf(b.line)
	}
	err := b.Key.sign(&h)
	var line []byte
	if err == nil {
		line, err = h.line()
	}
	if err == nil {
		err = appendTo(b.Folder.Path(FileName), line)
	}
	if err != nil {
		b.Log.Error("a head can't be kept", "serial", serial, "error", err)
		return
	}
	b.last, b.line, b.anew = h, line, false
	for _, to := range b.targets {
		to.send(line)
	}
}

// head is a head that isn't signed yet.
func (b *Book) head(serial uint64, chain folder.Chain, why string) Head {
	return Head{
		Kind: kind, Format: format, Serial: serial, Chain: chain, Made: time.Now().UTC(), Why: why, Stream: b.Folder.Stream(),
	}
}

// Now is the line of the head of the last edit that is on disk. It isn't kept.
func (b *Book) Now() ([]byte, error) {
	serial, chain := b.Folder.Head()
	h := b.head(serial, chain, "asked")
	if err := b.Key.sign(&h); err != nil {
		return nil, err
	}
	return h.line()
}

// Run makes a head each day on which there were edits, and sends heads, until the context is done.
func (b *Book) Run(ctx context.Context) {
	defer close(b.done)
	var all sync.WaitGroup
	for _, to := range b.targets {
		all.Add(1)
		go func(to *target) {
			defer all.Done()
			to.run(ctx)
		}(to)
	}
	tick := time.NewTicker(dayPause)
	defer tick.Stop()
	for ctx.Err() == nil {
		b.daily(time.Now())
		select {
		case <-tick.C:
		case <-ctx.Done():
		}
	}
	all.Wait()
}

// Finish sends what wasn't sent once Run has ended, as the head of the last snapshot, and takes a while for it at most.
func (b *Book) Finish(while time.Duration) {
	ctx, cancel := context.WithTimeout(context.Background(), while)
	defer cancel()
	<-b.done
	for _, to := range b.targets {
		for line := to.next(); line != nil && ctx.Err() == nil; line = to.next() {
			if err := to.give(ctx, line); err != nil {
				b.Log.Error("a head isn't sent, and is sent by the next start", "to", to.shown, "error", err)
				break
			}
			to.sent(line)
		}
	}
}

// daily makes a head where the last one is of a day before, or isn't signed as it is to be, or there is none.
func (b *Book) daily(now time.Time) {
	b.mutex.Lock()
	made, none := b.last.Made, b.line == nil || b.anew
	b.mutex.Unlock()
	const day = "2006-01-02"
	if none || made.Format(day) != now.UTC().Format(day) {
		serial, chain := b.Folder.Head()
		b.Make(serial, chain, "day")
	}
}

// appendTo adds a line to a file, and sees that it is on disk.
func appendTo(name string, line []byte) error {
	file, err := os.OpenFile(name, os.O_CREATE|os.O_APPEND|os.O_WRONLY, 0o600)
	if err != nil {
		return err
	}
	defer file.Close()
	if _, err := file.Write(append(append([]byte(nil), line...), '\n')); err != nil {
		return err
	}
	return file.Sync()
}
