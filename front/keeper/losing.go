package keeper

import (
	"context"
	"encoding/json"
	"errors"
	"fmt"
	"sync"
	"time"

	"review-front/changed"
	"review-front/scim"
)

// losingPause is how often it is looked which Permits edits by SCIM took away.
const losingPause = time.Second

// losing counts Permits that edits by SCIM took away, and holds provisioning where these are more than may be: behind
// the edits, since only then it is known.
type losing struct {
	keeper *Keeper
	mutex  sync.Mutex
	own    map[uint64]bool // serials of edits that this front made for users, and of which it isn't known yet
	upTo   uint64
	lost   []lost
}

// lost is how many Permits an edit took away.
type lost struct {
	at    time.Time
	count int
}

// counts says whether anything is counted.
func (l *losing) counts() bool {
	return l.keeper.AtMost.Given && l.keeper.Provision != nil && l.keeper.recorder.book != nil
}

// made says that an edit of a serial was made for a user.
func (l *losing) made(serial uint64) {
	if !l.counts() {
		return
	}
	l.mutex.Lock()
	defer l.mutex.Unlock()
	if len(l.own) == 0 {
		l.upTo = serial - 1
	}
	l.own[serial] = true
}

// run looks from time to time, until the context is done.
func (l *losing) run(ctx context.Context) {
	tick := time.NewTicker(losingPause)
	defer tick.Stop()
	for l.counts() {
		select {
		case <-tick.C:
		case <-ctx.Done():
			return
		}
		if err := l.look(ctx, time.Now()); err != nil && ctx.Err() == nil {
			l.keeper.Log.Error("it isn't known how many Permits were lost", "error", err)
		}
	}
}

// look looks once.
func (l *losing) look(ctx context.Context, now time.Time) error {
	if err := l.learn(); err != nil {
		return err
	}
	holding := l.keeper.Scim.Holding(now, l.keeper.AtMost.Within)
	if holding.Held != nil || holding.Free != nil {
		l.lost = nil // who lets it on has decided on them
		return nil
	}
	from := now.Add(-time.Duration(l.keeper.AtMost.Within) * time.Second)
	for len(l.lost) > 0 && !l.lost[0].at.After(from) {
		l.lost = l.lost[1:]
	}
	count := 0
	for _, one := range l.lost {
		count += one.count
	}
	if count == 0 {
		return nil
	}
	return l.judge(ctx, count)
}

// learn takes what edits changed that were made for users, as far as it is known.
func (l *losing) learn() error {
	l.mutex.Lock()
	defer l.mutex.Unlock()
	p := l.keeper.recorder
	if len(l.own) == 0 {
		return nil
	}
	until, missing := p.book.Missing(l.upTo, p.latest.Load())
	if !missing {
		until = p.latest.Load()
	}
	if until <= l.upTo {
		return nil
	}
	_, err := p.book.Edits(l.upTo, until, func(e *changed.Edit) error {
		if !l.own[e.Serial] || !e.Known {
			return nil
		}
		count := 0
		err := e.Each(func(one changed.Change) error {
			if one.Before == changed.Permit && one.After != changed.Permit {
				count++
			}
			return nil
		})
		if count > 0 {
			l.lost = append(l.lost, lost{at: e.Time, count: count})
		}
		return err
	})
	if err != nil {
		return err
	}
	l.upTo = until
	for serial := range l.own {
		if serial <= until {
			delete(l.own, serial)
		}
	}
	return nil
}

// judge holds provisioning where so many Permits that were lost are more than may be.
func (l *losing) judge(ctx context.Context, count int) error {
	k := l.keeper
	reply := k.Ask(ctx, []byte(`{"do":"counts"}`))
	var told struct{ Counts struct{ Permit int } }
	if reply.Err != nil {
		return reply.Err
	}
	if err := json.Unmarshal(reply.Body, &told); err != nil {
		return err
	}
	all := told.Counts.Permit + count
	if float64(count)*100 <= k.AtMost.Per*float64(all) {
		return nil
	}
	why := fmt.Sprintf("%d of %d Permits were lost within %s, which is more than %v%%", count, all,
		time.Duration(k.AtMost.Within)*time.Second, k.AtMost.Per)
	_, err := k.record(ctx, &scim.Record{Do: scim.Hold, Why: why}, "")
	var refused *scim.Error
	if errors.As(err, &refused) {
		return nil // it is held already
	}
	k.Log.Error("provisioning is held", "why", why)
	return err
}
