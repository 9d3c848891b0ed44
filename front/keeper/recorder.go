package keeper

import (
	"context"
	"sync"
	"sync/atomic"
	"time"

	"review-front/changed"
	"review-front/folder"
)

const (
	// mostNews and newsBytes are how many edits wait for the recorder, and how long their lines are together. Where more
	// do it reads them from the journal.
	mostNews  = 4096
	newsBytes = 16 << 20
	// restTime is after how long without an edit the recorder's program is let go.
	restTime = 10 * time.Minute
	// trimPause is how often old files of what edits changed are looked for.
	trimPause = time.Minute
	// recordTries is how often it is tried to learn what an edit changed.
	recordTries = 3
)

// recorder keeps what each edit changed. It has a program of the table's size beside the table's, which is told the
// same edits once they are on disk and asked behind each what it changed: so no reply waits for that, and what is
// missing is made again from the journal in the same way.
type recorder struct {
	keeper  *Keeper
	book    *changed.Book // nil: nothing is kept
	floor   atomic.Uint64 // what edits up to that serial changed can't be learned, or is too old to be kept
	latest  atomic.Uint64 // the serial of the last edit that was told
	reached *progress     // says that more is kept
	moved   chan struct{} // says that there are edits
	mutex   sync.Mutex
	news    []folder.Entry // edits that were told
	before  uint64         // the serial before the first of them
	bytes   int
	now     *running // the program; for the goroutine that records
	failed  uint64   // the serial behind which it wasn't learned what an edit changed
	tries   int      // how often
	trimmed time.Time
}

func newRecorder(k *Keeper) *recorder {
	return &recorder{keeper: k, reached: &progress{}, moved: make(chan struct{}, 1)}
}

// open reads what is kept. What the journal says otherwise is made again.
func (p *recorder) open() error {
	k := p.keeper
	if k.KeepHistory < 0 {
		return nil
	}
	begins, err := k.Folder.Begins()
	if err != nil {
		return err
	}
	last := k.Folder.Last()
	book, dropped := changed.Open(k.Folder.Path(""), k.KeepHistory, func(e changed.Edit) bool {
		if e.Serial <= begins {
			return true // the journal has it no more
		}
		entries, err := k.Folder.At(e.Journal, e.Byte)
		for _, entry := range entries {
			if entry.Serial == e.Serial && entry.Time.Equal(e.Time) && entry.Changes == e.Count {
				return err == nil && e.Serial <= last
			}
		}
		return false
	})
	for _, why := range dropped {
		k.Log.Info("what edits changed is made again", "why", why)
	}
	p.book = book
	p.latest.Store(last)
	p.floor.Store(p.from(begins))
	return nil
}

// from is behind which serial it is kept what edits changed: where some are kept no more than for a while, it isn't
// made again what is older.
func (p *recorder) from(begins uint64) uint64 {
	extent, some := p.book.Extent()
	if some && (p.keeper.KeepHistory > 0 || extent.After < begins) {
		return extent.After
	}
	return begins
}

// tell tells it edits that are on disk.
func (p *recorder) tell(entries []folder.Entry) {
	if p.book == nil {
		return
	}
	p.mutex.Lock()
	defer p.mutex.Unlock()
	if len(p.news) == 0 {
		p.before, p.bytes = p.latest.Load(), 0
	}
	p.latest.Store(entries[len(entries)-1].Serial)
	for _, entry := range entries {
		p.bytes += len(entry.Line)
	}
	if p.news = append(p.news, entries...); len(p.news) > mostNews || p.bytes > newsBytes {
		p.news = nil
	}
	select {
	case p.moved <- struct{}{}:
	default:
	}
}

// take gives the edits that were told, if they go on from a serial.
func (p *recorder) take(serial uint64) []folder.Entry {
	p.mutex.Lock()
	defer p.mutex.Unlock()
	news, before := p.news, p.before
	p.news = nil
	for len(news) > 0 && news[0].Serial <= serial {
		before, news = news[0].Serial, news[1:]
	}
	if before > serial {
		return nil
	}
	return news
}

// run records until the context is done.
func (p *recorder) run(ctx context.Context) {
	if p.book == nil {
		return
	}
	defer func() {
		p.rest()
		if err := p.book.Close(); err != nil {
			p.keeper.Log.Error("what edits changed isn't on disk, and is made again by the next start", "error", err)
		}
	}()
	for pause := firstPause; ctx.Err() == nil; pause = longer(pause) {
		err := p.record(ctx)
		if err == nil {
			pause = firstPause / 2
			p.trim()
			p.await(ctx)
			continue
		}
		p.rest()
		if ctx.Err() != nil {
			return
		}
		p.keeper.Log.Error("it isn't known yet what edits changed", "error", err, "after", pause)
		select {
		case <-time.After(pause):
		case <-ctx.Done():
		}
	}
}

// await waits for edits. After a while without any the program is let go.
func (p *recorder) await(ctx context.Context) {
	rest := time.NewTimer(restTime)
	defer rest.Stop()
	for {
		select {
		case <-p.moved:
			return
		case <-rest.C:
			p.rest()
			p.trim()
			rest.Reset(restTime)
		case <-ctx.Done():
			return
		}
	}
}

// rest lets the program go.
func (p *recorder) rest() {
	if p.now != nil {
		p.now.Discard()
		p.now = nil
	}
}

// trim takes away what is kept no longer.
func (p *recorder) trim() {
	k := p.keeper
	now := time.Now()
	if k.KeepHistory == 0 || now.Sub(p.trimmed) < trimPause {
		return
	}
	p.trimmed = now
	if err := p.book.Trim(k.needed(now.Add(-k.KeepHistory))); err != nil {
		k.Log.Error("what edits changed long ago couldn't be taken away", "error", err)
	}
	if extent, some := p.book.Extent(); some && extent.After > p.floor.Load() {
		p.floor.Store(extent.After)
	}
}

// History is what is kept of what edits changed, or nil where nothing is.
func (k *Keeper) History() *changed.Book { return k.recorder.book }

// Learned waits a while until it is known what edits up to a serial changed, as far as that can be.
func (k *Keeper) Learned(ctx context.Context, serial uint64) {
	p := k.recorder
	timer := time.NewTimer(k.Patience)
	defer timer.Stop()
	for {
		grown := p.reached.next()
		if _, missing := p.book.Missing(p.floor.Load(), serial); !missing {
			return
		}
		select {
		case <-grown:
		case <-timer.C:
			return
		case <-ctx.Done():
			return
		}
	}
}
