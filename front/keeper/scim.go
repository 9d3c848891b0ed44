package keeper

import (
	"context"
	"errors"
	"strconv"

	"review-front/folder"
	"review-front/line"
	"review-front/scim"
)

// Bound says how many of a hundred people may go by SCIM within a while, in seconds.
type Bound struct {
	Given  bool
	Per    float64
	Within int
}

// frontName is a name that no other front of a stream has.
func frontName() string {
	name, err := newID()
	if err != nil {
		return "a front"
	}
	return name
}

// provisionOf is a record of SCIM that a stream brought. What can't be read each replica refuses.
func provisionOf(l []byte) *act {
	record, err := scim.Read(l)
	return &act{scim: record, refused: err}
}

// Record has a record of SCIM judged at its place, and waits for what becomes of it: for its serial, once it is on
// disk. Where more people would go by it than may, provisioning is held from then on.
func (k *Keeper) Record(ctx context.Context, record *scim.Record, by string) (uint64, error) {
	serial, err := k.record(ctx, record, by)
	var refused *scim.Error
	if errors.As(err, &refused) && refused.Excess {
		held := &scim.Record{Do: scim.Hold, Why: refused.Detail}
		if _, err := k.record(ctx, held, by); err != nil && !errors.As(err, &refused) {
			k.Log.Error("provisioning isn't held", "error", err)
		}
		k.Log.Error("provisioning is held", "why", held.Why)
	}
	return serial, err
}

// record has one judged.
func (k *Keeper) record(ctx context.Context, record *scim.Record, by string) (uint64, error) {
	if k.AtMost.Given {
		per := k.AtMost.Per
		record.Most = &per
	}
	record.Within = k.AtMost.Within
	if k.streamed != nil {
		record.Front = k.Scim.Front()
	}
	l, err := record.Line()
	if err != nil {
		return 0, err
	}
	if len(l) > line.Limit {
		return 0, &scim.Error{Status: 413, Detail: "the resource is too long"}
	}
	reply := k.Send(ctx, &Call{Line: l, By: by, kind: line.Edit, act: provisionOf(l)})
	if reply.Err != nil {
		return 0, reply.Err
	}
	serial, ok := readProvisioned(reply.Body)
	if !ok {
		return 0, ErrAsked
	}
	return serial, nil
}

// provisioned gives a record of SCIM its place, if it is taken there. It is for who reads replies.
func (s *serving) provisioned(next *settled) []byte {
	call, r := next.call, s.program
	a := call.act
	if a.scim.Do == "" {
		return []byte(`{}`)
	}
	a.scim.Time, a.scim.By = call.at, call.By
	if a.refused = s.keeper.Scim.Judge(a.scim); a.refused != nil {
		return []byte(`{}`)
	}
	if r.serial++; call.sequence != 0 {
		r.serial = call.sequence
	}
	a.scim.Serial = r.serial
	if err := s.keeper.Scim.Apply(a.scim); err != nil {
		s.keeper.Log.Error("a record of SCIM doesn't count", "error", err)
	}
	next.entry = call.entry(r.serial, 0)
	return strconv.AppendUint([]byte(provisionedBegins), r.serial, 10)
}

// provisionedBegins begins what is answered to a record of SCIM that is taken: its serial follows.
const provisionedBegins = "scim "

func readProvisioned(reply []byte) (uint64, bool) {
	if len(reply) <= len(provisionedBegins) || string(reply[:len(provisionedBegins)]) != provisionedBegins {
		return 0, false
	}
	serial, err := strconv.ParseUint(string(reply[len(provisionedBegins):]), 10, 64)
	return serial, err == nil
}

// resumeScim reads the users and groups of the journal, and which names and rows the table has.
func (k *Keeper) resumeScim() error {
	has, err := k.Folder.HasProvision()
	if err != nil || !has && k.Provision == nil {
		return err
	}
	return k.readScim(k.Scim, k.Folder.Last(), k.provisioning.seen)
}

// readScim has a table be as the disk says that it was at a serial, and calls for each line of an edit up to there, if
// somebody wants that.
func (k *Keeper) readScim(table *scim.Table, serial uint64, seen func([]byte)) error {
	snapshot, _, err := k.Folder.Base(serial)
	if err != nil {
		return err
	}
	if err := table.Load(snapshot.Records); err != nil {
		return err
	}
	if seen != nil {
		for _, l := range snapshot.Lines {
			seen(l)
		}
	}
	err = k.Folder.Each(snapshot.Serial, func(entry folder.Entry, _ folder.Place) error {
		switch {
		case entry.Serial > serial:
			return errEnough
		case entry.IsProvision():
			return applyScim(table, entry)
		case seen != nil && !entry.IsRecord():
			seen(entry.Line)
		}
		return nil
	})
	if errors.Is(err, errEnough) {
		err = nil
	}
	return err
}

// applyScim has a record of the journal count.
func applyScim(table *scim.Table, entry folder.Entry) error {
	record, err := scim.Read(entry.Line)
	if err != nil {
		return err
	}
	record.Serial, record.Time, record.By = entry.Serial, entry.Time, entry.By
	return table.Apply(record)
}

// scimAt is what users and groups were at a serial, as lines of a snapshot: as the disk says, since the table may be
// further.
func (k *Keeper) scimAt(serial uint64) ([][]byte, error) {
	if k.Scim.Last() == 0 {
		return nil, nil
	}
	table := scim.NewTable("")
	if err := k.readScim(table, serial, nil); err != nil {
		return nil, err
	}
	return table.Lines()
}

// cutScim has users and groups be as the disk says, where records that had their place couldn't be kept.
func (k *Keeper) cutScim() error {
	if k.Scim.Last() <= k.Folder.Last() {
		return nil
	}
	table := scim.NewTable("")
	if err := k.readScim(table, k.Folder.Last(), nil); err != nil {
		return err
	}
	k.Scim.Take(table)
	return nil
}
