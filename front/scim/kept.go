package scim

import (
	"encoding/json"
	"fmt"
	"time"
)

// The commands of lines of a snapshot.
const (
	keptState   = "scim.state"
	keptOne     = "scim.kept"
	keptMembers = "scim.members"
	// membersEach is how many members a line has at most.
	membersEach = 10_000
)

// keptLine is a line of a snapshot: what isn't of a resource, a resource, or members of a group.
type keptLine struct {
	Do       string          `json:"do"`
	Kind     string          `json:"type,omitempty"`
	ID       string          `json:"id,omitempty"`
	Born     uint64          `json:"born,omitempty"`
	Serial   uint64          `json:"serial,omitempty"`
	Created  *time.Time      `json:"created,omitempty"`
	Modified *time.Time      `json:"modified,omitempty"`
	Key      string          `json:"key,omitempty"`
	Active   bool            `json:"active,omitempty"`
	Resource json.RawMessage `json:"resource,omitempty"`
	Members  []string        `json:"members,omitempty"`
	Held     *Held           `json:"held,omitempty"`
	Gone     []time.Time     `json:"gone,omitempty"`
	Free     *time.Time      `json:"free,omitempty"`
}

// Lines are all that the table has, as lines of a snapshot; none where it never had anything.
func (t *Table) Lines() ([][]byte, error) {
	t.mutex.RLock()
	defer t.mutex.RUnlock()
	if t.last == 0 {
		return nil, nil
	}
	state := keptLine{Do: keptState, Serial: t.last, Held: t.held, Gone: t.gone}
	if free := t.free; !free.IsZero() {
		state.Free = &free
	}
	all := []keptLine{state}
	for _, kind := range []string{"User", "Group"} {
		for _, r := range t.kinds[kind] {
			created, modified := r.Created, r.Modified
			all = append(all, keptLine{
				Do: keptOne, Kind: r.Kind, ID: r.ID, Born: r.Born, Serial: r.Serial, Created: &created, Modified: &modified,
				Key: r.Key, Active: r.Active, Resource: r.raw,
			})
		}
	}
	for _, r := range t.kinds["Group"] {
		for ids := t.groups[r.ID].list(); len(ids) > 0; {
			some := ids
			if len(some) > membersEach {
				some = some[:membersEach]
			}
			ids = ids[len(some):]
			all = append(all, keptLine{Do: keptMembers, ID: r.ID, Members: some})
		}
	}
	lines := make([][]byte, 0, len(all))
	for _, one := range all {
		l, err := lineOf(one)
		if err != nil {
			return nil, err
		}
		lines = append(lines, l)
	}
	return lines, nil
}

// Load takes the lines of a snapshot in the place of all that the table has.
func (t *Table) Load(lines [][]byte) error {
	t.mutex.Lock()
	defer t.mutex.Unlock()
	t.clear()
	for _, l := range lines {
		var one keptLine
		if err := json.Unmarshal(l, &one); err != nil {
			return fmt.Errorf("a line of SCIM in a snapshot: %w", err)
		}
		if err := t.load(one); err != nil {
			return err
		}
	}
	return nil
}

func (t *Table) load(one keptLine) error {
	switch one.Do {
	case keptState:
		t.last, t.held, t.gone = one.Serial, one.Held, one.Gone
		if one.Free != nil {
			t.free = *one.Free
		}
	case keptOne:
		if one.Created == nil || one.Modified == nil {
			return fmt.Errorf("the resource %q of a snapshot isn't whole", one.ID)
		}
		t.put(&Resource{
			Kind: one.Kind, ID: one.ID, Born: one.Born, Serial: one.Serial, Created: *one.Created, Modified: *one.Modified,
			Key: one.Key, Active: one.Active, raw: one.Resource,
		})
		if one.Kind == "Group" {
			t.groups[one.ID] = newMemberSet()
		}
	case keptMembers:
		if t.groups[one.ID] == nil {
			return fmt.Errorf("members of a snapshot are of no group %q", one.ID)
		}
		for _, id := range one.Members {
			t.groups[one.ID].add(id)
			t.join(id, one.ID)
		}
	default:
		return fmt.Errorf("a snapshot has a line %q of SCIM, which isn't known", one.Do)
	}
	return nil
}

// Take takes what another table has, which nobody uses any more, in the place of all that this one has.
func (t *Table) Take(other *Table) {
	t.mutex.Lock()
	defer t.mutex.Unlock()
	for _, users := range [][]*Resource{t.kinds["User"], other.kinds["User"]} { // some may be gone
		for _, one := range users {
			if _, there := t.touched[one.ID]; !there {
				t.touched[one.ID] = Touch{Serial: other.last}
			}
		}
	}
	t.all, t.kinds, t.names, t.groups, t.in = other.all, other.kinds, other.names, other.groups, other.in
	t.last, t.held, t.gone, t.free = other.last, other.held, other.gone, other.free
}
