package keeper

import (
	"context"
	"fmt"
	"sort"
	"strings"
	"sync"
	"sync/atomic"
	"time"

	"review-front/folder"
	"review-front/line"
	"review-front/provision"
	"review-front/source/differ"
)

const (
	// sweepPause is how often all names and rows are compared with what users have.
	sweepPause = 10 * time.Minute
	// foreignPause is how long another front of a stream has to make the edits of its own record, before this one looks.
	foreignPause = 3 * time.Second
	// mostBehind is how many names are told that the table hasn't as users have them.
	mostBehind = 100
	// behindPause is how often some of them are tried again, and triedAgain how many at a time.
	behindPause = 5 * time.Second
	triedAgain  = 100
	// provisionAhead is how many edits are on their way at once.
	provisionAhead = 64
)

// provisioning makes the table have the names and rows that users of SCIM have.
type provisioning struct {
	keeper   *Keeper
	follower *provision.Follower // nil where there is no mapping
	mutex    sync.Mutex
	news     []folder.Entry // edits that were made since it looked
	behind   map[string]string
	due      map[string]time.Time // users whom another front's records touched, and when it is looked
	by       map[string]string    // who touched the user of a name last
	retry    map[string]bool      // names that are looked at again
	tried    time.Time            // when some of those behind were
	renamed  map[string]bool      // names that users had, who have others now
	losing   *losing
	done     atomic.Uint64 // the serial of the record up to which the table is as users are
	reached  *progress
}

func newProvisioning(k *Keeper) *provisioning {
	p := &provisioning{
		keeper: k, behind: map[string]string{}, due: map[string]time.Time{}, by: map[string]string{},
		retry: map[string]bool{}, reached: &progress{}, losing: &losing{keeper: k, own: map[uint64]bool{}},
	}
	if k.Provision != nil {
		p.follower = provision.NewFollower(k.Provision, k.Scim)
	}
	return p
}

// seen has it know of an edit that was made before the front began.
func (p *provisioning) seen(l []byte) {
	if p.follower != nil {
		p.follower.Seen(l)
	}
}

// tell tells it of edits that are on disk. It is for everybody.
func (p *provisioning) tell(entries []folder.Entry) {
	if p.follower == nil {
		return
	}
	p.mutex.Lock()
	defer p.mutex.Unlock()
	for _, entry := range entries {
		if !entry.IsRecord() {
			p.news = append(p.news, entry)
		}
	}
}

// hear takes the edits that were made meanwhile.
func (p *provisioning) hear() {
	p.mutex.Lock()
	news := p.news
	p.news = nil
	p.mutex.Unlock()
	for _, entry := range news {
		p.follower.Seen(entry.Line)
	}
}

// run follows users until the context is done: at first it looks at all of them.
func (p *provisioning) run(ctx context.Context) {
	if p.follower == nil {
		return
	}
	tick := time.NewTicker(time.Second)
	defer tick.Stop()
	var swept time.Time
	for ctx.Err() == nil {
		switch {
		case !p.keeper.ready.is() || p.keeper.Scim.Last() == 0: // of nobody nothing is taken away
		case time.Since(swept) >= sweepPause:
			swept = time.Now()
			p.keeper.Scim.TouchAll()
			p.round(ctx, true)
		default:
			p.round(ctx, false)
		}
		select {
		case <-p.keeper.Scim.Moved():
		case <-tick.C:
		case <-ctx.Done():
		}
	}
}

// round has the table be as users are who were touched, or as all are.
func (p *provisioning) round(ctx context.Context, all bool) {
	touched, upTo := p.keeper.Scim.Touched()
	p.hear()
	now := time.Now()
	var ids []string
	about := map[string]string{}
	for id, touch := range touched {
		if about[id] = touch.By; touch.Foreign && !all {
			p.due[id] = now.Add(foreignPause)
			continue
		}
		ids = append(ids, id)
		delete(p.due, id)
	}
	for id, at := range p.due {
		if !now.Before(at) {
			ids = append(ids, id)
			delete(p.due, id)
		}
	}
	sort.Strings(ids)
	names, renamed := p.follower.Again(ids)
	p.renamed = renamed
	for name := range names {
		if by := about[p.follower.ID(name)]; by != "" {
			p.by[name] = by
		}
	}
	p.again(names, now)
	only := names
	if all {
		only = nil
	}
	if all || len(names) > 0 {
		p.make(ctx, p.follower.Plan(only), whoOf(about))
	}
	if all || len(ids) > 0 {
		p.tellBehind()
	}
	if upTo > p.done.Load() {
		p.done.Store(upTo)
	}
	p.reached.moved()
}

// again adds names that are looked at again: soon where nobody could be asked, and from time to time some that the table
// refused.
func (p *provisioning) again(names map[string]bool, now time.Time) {
	for name := range p.retry {
		names[name] = true
	}
	p.retry = map[string]bool{}
	if now.Sub(p.tried) < behindPause {
		return
	}
	p.tried = now
	p.mutex.Lock()
	defer p.mutex.Unlock()
	count := 0
	for name := range p.behind {
		if !isFault(name) && count < triedAgain {
			names[name] = true
			count++
		}
	}
}

// isFault says whether something stands for the id of a user who has no name.
func isFault(name string) bool { return strings.HasPrefix(name, "#") }

// whoOf is who touched users, where that is one alone.
func whoOf(about map[string]string) string {
	who := ""
	for _, by := range about {
		if who != "" && by != who {
			return ""
		}
		who = by
	}
	return who
}

// make makes the edits of some changes: of names that come first their rows.
func (p *provisioning) make(ctx context.Context, changes []differ.Change, who string) {
	by := func(name string) string {
		if one := p.by[name]; one != "" {
			return one
		}
		return who
	}
	var first, last []edit
	for _, change := range changes {
		name := change.Entity.Name
		lines := change.Edits
		if change.What == differ.Added {
			last = append(last, edit{name: name, by: by(name), line: lines[len(lines)-1]})
			lines = lines[:len(lines)-1]
		}
		for _, l := range lines {
			first = append(first, edit{name: name, by: by(name), line: l, renames: p.renamed[name]})
		}
	}
	failed := p.send(ctx, first)
	var come []edit
	for _, one := range last {
		if !failed[one.name] {
			come = append(come, one)
		}
	}
	for name := range p.send(ctx, come) {
		failed[name] = true
	}
	for _, change := range changes {
		if name := change.Entity.Name; !failed[name] {
			p.mutex.Lock()
			delete(p.behind, name)
			p.mutex.Unlock()
		}
	}
	p.hear()
}

// edit is one that is made for a name.
type edit struct {
	name, by string
	line     []byte
	renames  bool // its user has another name now
}

// send makes edits, and gives the names of which one isn't made.
func (p *provisioning) send(ctx context.Context, edits []edit) map[string]bool {
	failed := map[string]bool{}
	for len(edits) > 0 && ctx.Err() == nil {
		some := edits
		if len(some) > provisionAhead {
			some = some[:provisionAhead]
		}
		edits = edits[len(some):]
		calls, errs := make([]*Call, len(some)), make([]error, len(some))
		for i, one := range some {
			calls[i] = &Call{Line: one.line, By: one.by, kind: line.Edit}
			_, errs[i] = p.keeper.Submit(ctx, calls[i])
		}
		for i, one := range some {
			reply := calls[i].wait(ctx, errs[i])
			if why, again := failure(reply); why != "" {
				failed[one.name] = true
				p.fails(one, why, again)
			} else if told, ok := line.ReadAccepted(reply.Body); ok && !one.renames {
				p.losing.made(told.Serial)
			}
		}
	}
	return failed
}

// failure says why an edit isn't made, or nothing, and whether it is tried again soon. What is so already is none.
func failure(reply Reply) (why string, again bool) {
	if reply.Err != nil {
		return reply.Err.Error(), true
	}
	number, _, refused := line.ReadRefusal(reply.Body)
	switch {
	case !refused || number == 7 || number == 8:
		return "", false
	}
	return fmt.Sprintf("refusal %d", number), number == 15
}

// fails keeps that the table hasn't what a user has.
func (p *provisioning) fails(of edit, why string, again bool) {
	p.mutex.Lock()
	defer p.mutex.Unlock()
	if again {
		p.retry[of.name] = true
	} else if p.behind[of.name] != why {
		p.keeper.Log.Error("the table hasn't what a user of SCIM has", "name", of.name, "line", string(of.line), "why", why)
	}
	p.behind[of.name] = why
}

// tellBehind keeps which users have no name, or no rows.
func (p *provisioning) tellBehind() {
	p.mutex.Lock()
	defer p.mutex.Unlock()
	for name := range p.behind {
		if isFault(name) {
			delete(p.behind, name)
		}
	}
	for id, why := range p.follower.Faults() {
		p.behind["#"+id] = why
	}
}

// Behind is a name, or the id of a user, that the table hasn't as SCIM has it, and why.
type Behind struct {
	Name string `json:"name,omitempty"`
	ID   string `json:"id,omitempty"`
	Why  string `json:"why"`
}

// Behind are some of those, and how many there are.
func (k *Keeper) Behind() ([]Behind, int) {
	p := k.provisioning
	p.mutex.Lock()
	defer p.mutex.Unlock()
	var all []Behind
	for name, why := range p.behind {
		one := Behind{Name: name, Why: why}
		if isFault(name) {
			one = Behind{ID: name[1:], Why: why}
		}
		all = append(all, one)
	}
	sort.Slice(all, func(i, j int) bool { return all[i].Name+all[i].ID < all[j].Name+all[j].ID })
	if count := len(all); count > mostBehind {
		return all[:mostBehind], count
	}
	return all, len(all)
}

// Provisioned waits a while until the table has what users have as of a record of SCIM, and says whether that is so.
func (k *Keeper) Provisioned(ctx context.Context, serial uint64) bool {
	p := k.provisioning
	if p.follower == nil {
		return false
	}
	timer := time.NewTimer(k.Patience)
	defer timer.Stop()
	for {
		grown := p.reached.next()
		if p.done.Load() >= serial {
			return true
		}
		select {
		case <-grown:
		case <-timer.C:
			return false
		case <-ctx.Done():
			return false
		}
	}
}
