package keeper

import (
	"bytes"
	"context"
	"errors"
	"fmt"
	"io"
	"os"
	"strconv"
	"time"

	"review-front/campaigns"
	"review-front/changed"
	"review-front/folder"
	"review-front/line"
	"review-front/scim"
)

// act is a record of a campaign, or of SCIM, on its way. It is judged at its place among edits, that of a campaign by
// what the program answers there, and is in the journal if it is taken.
type act struct {
	record  *campaigns.Record
	scim    *scim.Record
	items   *campaigns.Items // of a campaign that is opened
	refused error            // why it isn't taken
	known   bool             // it was taken by the front with whose snapshot this one began
}

// actOf is a record that a stream brought. What can't be read each replica refuses.
func actOf(l []byte) *act {
	record, err := campaigns.Read(l)
	return &act{record: record, refused: err}
}

// Act has a record of a campaign judged at its place, and waits for what becomes of it.
func (k *Keeper) Act(ctx context.Context, record *campaigns.Record, by string) Reply {
	l, err := record.Line()
	if err != nil {
		return Reply{Err: err}
	}
	if len(l) > line.Limit {
		return Reply{Err: &campaigns.Refused{Status: 413, Title: "too long", Detail: "an act is of fewer items"}}
	}
	reply := k.Send(ctx, &Call{Line: l, By: by, kind: line.Edit, act: actOf(l)})
	if k.Announce != nil && reply.Err == nil {
		go k.announces(context.Background(), record.Do, reply)
	}
	return reply
}

// judge says whether a record is taken. It is for who sends lines: between its questions there are no others, and
// records before it count.
func (s *serving) judge(call *Call) {
	a := call.act
	if a.scim != nil && call.sequence == 0 {
		call.at = time.Now()
	}
	if a.record == nil {
		return
	}
	a.items, a.refused, a.known = nil, nil, false
	if last := s.keeper.Campaigns.Last(); call.sequence != 0 && call.sequence <= last {
		if a.known = s.keeper.Campaigns.Has(call.sequence); !a.known {
			a.refused = errors.New("another front didn't take it")
		}
		return
	}
	if call.sequence == 0 {
		call.at = time.Now()
	}
	a.record.Time, a.record.By = call.at, call.By
	if _, err := s.Ask(working); err != nil {
		return // it has no reply, as the questions would have none
	}
	items, err := s.keeper.Campaigns.Judge(a.record, s)
	var refused *campaigns.Refused
	switch {
	case err == nil:
		a.items = items
	case errors.As(err, &refused):
		a.refused = refused
	default:
		s.keeper.Log.Error("a record of a campaign can't be judged", "error", err)
		a.refused = &Unavailable{Why: "it can't be judged: " + err.Error(), After: time.Second}
	}
}

// Ask asks lines at this place, of which each has a short reply.
func (s *serving) Ask(lines ...[]byte) ([][]byte, error) {
	replies := make([]bytes.Buffer, len(lines))
	for i, l := range lines {
		if err := s.hear(l, &replies[i], i+1 == len(lines)); err != nil {
			return nil, err
		}
	}
	said := make([][]byte, len(lines))
	for i := range replies {
		said[i] = replies[i].Bytes()
	}
	return said, nil
}

// Tell asks a line at this place, and writes the reply as it comes.
func (s *serving) Tell(l []byte, to io.Writer) error { return s.hear(l, to, true) }

// hear asks a line, and waits for its reply if it is the last of some.
func (s *serving) hear(l []byte, to io.Writer, last bool) error {
	kind, _ := line.Read(l)
	heard := make(chan error, 1)
	s.send(&Call{Line: l, kind: kind, own: true, to: to, heard: func(err error) { heard <- err }})
	if !last {
		return nil
	}
	_ = s.program.Flush()
	return <-heard
}

// acted gives a record that was judged its place, and what its client is told. It is for who reads replies.
func (s *serving) acted(next *settled) []byte {
	call := next.call
	a := call.act
	if a.scim != nil {
		return s.provisioned(next)
	}
	if a.refused != nil || a.record == nil {
		return []byte(`{}`)
	}
	r := s.program
	if r.serial++; call.sequence != 0 {
		r.serial = call.sequence
	}
	a.record.Serial = r.serial
	if a.items != nil {
		a.items.Serial = r.serial
		s.keeper.keepItems(a.items)
	}
	if a.known {
		next.entry = call.entry(r.serial, 0)
		return []byte(`{}`)
	}
	if err := s.keeper.Campaigns.Apply(a.record, a.items); err != nil {
		s.keeper.Log.Error("a record of a campaign doesn't count", "error", err)
	}
	next.entry = call.entry(r.serial, 0)
	told := []byte(`{"campaign":"` + a.record.Campaign + `","items":`)
	count := len(a.record.Items)
	if a.items != nil {
		count = len(a.items.Cells)
	}
	told = strconv.AppendInt(told, int64(count), 10)
	return append(strconv.AppendUint(append(told, `,"serial":`...), r.serial, 10), '}')
}

// keepItems writes the items of a campaign. Where that can't be done a start finds them anew.
func (k *Keeper) keepItems(items *campaigns.Items) {
	content, err := items.Marshal()
	if err == nil {
		var file *os.File
		if file, err = k.Folder.Replace(folder.Campaign(items.Serial), content); err == nil {
			err = file.Close()
		}
	}
	if err != nil {
		k.Log.Error("the items of a campaign aren't on disk, and are found anew by a start", "error", err)
	}
}

// resumeCampaigns reads the campaigns of the journal. One whose items can't be had any more is passed over.
func (k *Keeper) resumeCampaigns(ctx context.Context) error {
	lost := map[string]bool{}
	begins, err := k.Folder.Begins()
	if err != nil {
		return err
	}
	k.Campaigns.Begins(begins)
	k.readAdopted()
	return k.Folder.EachCampaign(func(entry folder.Entry) error {
		if entry.Serial <= k.Campaigns.Last() {
			return nil // another front knew it
		}
		record, err := campaigns.Read(entry.Line)
		if err != nil {
			return fmt.Errorf("serial %d: %w", entry.Serial, err)
		}
		record.Serial, record.Time, record.By = entry.Serial, entry.Time, entry.By
		var items *campaigns.Items
		if record.Do == campaigns.Open {
			if items, err = k.itemsOf(ctx, record); err != nil && ctx.Err() == nil {
				k.Log.Error("the items of a campaign can't be had any more, and it isn't told", "campaign", record.Campaign,
					"serial", entry.Serial, "error", err)
			}
			lost[record.Campaign] = err != nil
		}
		if ctx.Err() != nil || lost[record.Campaign] {
			return ctx.Err()
		}
		return k.Campaigns.Apply(record, items)
	})
}

// adopted is the file of what another front knew of campaigns with whose snapshot this one began.
const adopted = "campaigns"

// adoptCampaigns has this front know of campaigns what another one does.
func (l *streamed) adoptCampaigns(ctx context.Context, from Other) error {
	k := l.keeper
	if err := os.Remove(k.Folder.Path(adopted)); err != nil && !errors.Is(err, os.ErrNotExist) {
		return err
	}
	file, err := from.Campaigns(ctx)
	if err != nil {
		return err
	}
	defer file.Close()
	content, err := io.ReadAll(file)
	if err != nil {
		return err
	}
	if err := campaigns.NewTable().Adopt(content); err != nil {
		return err
	}
	kept, err := k.Folder.Replace(adopted, content)
	if err != nil {
		return err
	}
	return kept.Close()
}

// readAdopted reads what another front knew of campaigns with whose snapshot this one began.
func (k *Keeper) readAdopted() {
	content, err := os.ReadFile(k.Folder.Path(adopted))
	if errors.Is(err, os.ErrNotExist) {
		return
	}
	if err == nil {
		err = k.Campaigns.Adopt(content)
	}
	if err != nil {
		k.Log.Error("what another front knew of campaigns can't be read, and none of before is known", "error", err)
	}
}

// itemsOf are the items of a campaign: those of its file, or what a program of then answers.
func (k *Keeper) itemsOf(ctx context.Context, record *campaigns.Record) (*campaigns.Items, error) {
	content, err := os.ReadFile(k.Folder.Path(folder.Campaign(record.Serial)))
	if err == nil {
		var items *campaigns.Items
		if items, err = campaigns.Unmarshal(content, record.Serial); err == nil {
			return items, nil
		}
	}
	k.Log.Info("the items of a campaign are found anew", "campaign", record.Campaign, "why", err)
	items, err := campaigns.Make(record.Definition, &then{keeper: k, context: ctx, serial: record.Serial})
	if err != nil {
		return nil, err
	}
	items.Serial = record.Serial
	k.keepItems(items)
	return items, nil
}

// then asks a program of an earlier state.
type then struct {
	keeper  *Keeper
	context context.Context
	serial  uint64
}

// Ask asks lines there.
func (t *then) Ask(lines ...[]byte) ([][]byte, error) {
	replies, err := t.keeper.At(t.context, t.serial, lines...)
	if err != nil {
		return nil, err
	}
	var said [][]byte
	for _, reply := range replies {
		var to bytes.Buffer
		if reply.Err != nil {
			return nil, reply.Err
		}
		if _, err := reply.WriteTo(&to); err != nil {
			return nil, err
		}
		said = append(said, bytes.TrimSuffix(to.Bytes(), newline))
	}
	return said, nil
}

// Tell asks a line there, and writes the reply.
func (t *then) Tell(l []byte, to io.Writer) error {
	replies, err := t.keeper.At(t.context, t.serial, l)
	if err != nil {
		return err
	}
	if replies[0].Err != nil {
		return replies[0].Err
	}
	_, err = replies[0].WriteTo(to)
	return err
}

// needed is from when on journals, and what edits changed, stay where they would go before a time: campaigns rest on
// what stands behind the first of them.
func (k *Keeper) needed(before time.Time) time.Time {
	if _, at, some := k.Campaigns.First(); some && at.Before(before) {
		return at
	}
	return before
}

// follows has campaigns follow edits as soon as it is known what these changed, until the context is done.
func (k *Keeper) follows(ctx context.Context) {
	if k.recorder.book == nil {
		return
	}
	for ctx.Err() == nil {
		grown := k.recorder.reached.next()
		if err := k.followOnce(); err != nil {
			k.Log.Error("it isn't known which sign-offs stand", "error", err)
		}
		select {
		case <-grown:
		case <-ctx.Done():
		}
	}
}

// followOnce follows as far as it is known.
func (k *Keeper) followOnce() error {
	p := k.recorder
	from, _ := k.Campaigns.UpTo()
	first, _, some := k.Campaigns.First()
	if !some {
		return nil
	}
	if from < first-1 {
		from = first - 1
	}
	if floor := p.floor.Load(); from < floor {
		k.Campaigns.Unknown(floor)
		from = floor
	}
	until, missing := p.book.Missing(from, p.latest.Load())
	if !missing {
		until = p.latest.Load()
	}
	if until <= from {
		return nil
	}
	lost, err := p.book.Edits(from, until, func(e *changed.Edit) error { return k.Campaigns.Edited(e) })
	if err != nil {
		return err
	}
	if len(lost) > 0 {
		return fmt.Errorf("what edits behind %d changed can't be read", lost[0].After)
	}
	k.Campaigns.Reached(until)
	return nil
}

// Follow waits a while until it is known which sign-offs stand as of a serial.
func (k *Keeper) Follow(ctx context.Context, serial uint64) error {
	timer := time.NewTimer(k.Patience)
	defer timer.Stop()
	for {
		upTo, moved := k.Campaigns.UpTo()
		if upTo >= serial || k.Campaigns.Last() == 0 {
			return nil
		}
		select {
		case <-moved:
		case <-timer.C:
			return ErrFollow
		case <-ctx.Done():
			return ctx.Err()
		}
	}
}

// ErrFollow says that it isn't known yet which sign-offs stand.
var ErrFollow = &Unavailable{Why: "it isn't known yet what the last edits changed", After: time.Second}

// AskAll asks lines that need no session and whose replies are short, and waits for all.
func (k *Keeper) AskAll(ctx context.Context, lines [][]byte) []Reply {
	replies := make([]Reply, len(lines))
	waits := make([]<-chan Reply, len(lines))
	for i, l := range lines {
		waits[i], replies[i].Err = k.Submit(ctx, &Call{Line: l})
	}
	for i, wait := range waits {
		if replies[i].Err != nil {
			continue
		}
		select {
		case replies[i] = <-wait:
		case <-ctx.Done():
			replies[i].Err = ctx.Err()
		}
	}
	return replies
}
