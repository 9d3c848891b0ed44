package scim

// memberSet are the members of a group, in the order in which they came.
type memberSet struct {
	at    map[string]int
	order []string // with nothing in the place of those that went
}

func newMemberSet() *memberSet { return &memberSet{at: map[string]int{}} }

func (m *memberSet) add(id string) {
	if _, there := m.at[id]; !there {
		m.at[id] = len(m.order)
		m.order = append(m.order, id)
	}
}

func (m *memberSet) drop(id string) {
	at, there := m.at[id]
	if !there {
		return
	}
	delete(m.at, id)
	if m.order[at] = ""; len(m.order) > 64 && len(m.at) < len(m.order)/2 {
		m.order = m.list()
		for i, one := range m.order {
			m.at[one] = i
		}
	}
}

// list are all of them.
func (m *memberSet) list() []string {
	all := make([]string, 0, len(m.at))
	for _, one := range m.order {
		if one != "" {
			all = append(all, one)
		}
	}
	return all
}

// members has a group's members be as a record says. Who isn't there any more isn't added.
func (t *Table) members(r *Record) {
	set := t.groups[r.ID]
	if set == nil {
		set = newMemberSet()
		t.groups[r.ID] = set
	}
	going := r.Drop
	if r.Clear {
		going = set.list()
	}
	for _, id := range going {
		if _, there := set.at[id]; there {
			t.touch(r, id)
			set.drop(id)
			t.leave(id, r.ID)
		}
	}
	for _, id := range r.Add {
		if t.all[id] != nil && id != r.ID {
			set.add(id)
			t.join(id, r.ID)
			t.touch(r, id)
		}
	}
}

// join and leave keep in which groups somebody is.
func (t *Table) join(id, group string) {
	if t.in[id] == nil {
		t.in[id] = map[string]bool{}
	}
	t.in[id][group] = true
}

func (t *Table) leave(id, group string) {
	if delete(t.in[id], group); len(t.in[id]) == 0 {
		delete(t.in, id)
	}
}

// touch says that rows of a user may be others, or those of all who are in a group.
func (t *Table) touch(r *Record, id string) {
	about := Touch{Serial: r.Serial, By: r.By, Foreign: r.Front != "" && r.Front != t.front}
	seen := map[string]bool{}
	due := []string{id}
	for len(due) > 0 {
		one := due[len(due)-1]
		due = due[:len(due)-1]
		if seen[one] {
			continue
		}
		seen[one] = true
		if set := t.groups[one]; set != nil {
			due = append(due, set.list()...)
		} else {
			t.touched[one] = about
		}
	}
}

// Touched takes the users whose rows may be others by now, and says up to which record that is. Moved says that there
// are more.
func (t *Table) Touched() (map[string]Touch, uint64) {
	t.mutex.Lock()
	defer t.mutex.Unlock()
	touched := t.touched
	t.touched = map[string]Touch{}
	return touched, t.last
}

// Moved has something whenever there was a record.
func (t *Table) Moved() <-chan struct{} { return t.moved }

// TouchAll says that the rows of all users may be others.
func (t *Table) TouchAll() {
	t.mutex.Lock()
	defer t.mutex.Unlock()
	for _, one := range t.kinds["User"] {
		if _, there := t.touched[one.ID]; !there {
			t.touched[one.ID] = Touch{Serial: t.last}
		}
	}
}

// isMember says whether somebody is in a group, and not by another.
func (t *Table) isMember(group, id string) bool {
	t.mutex.RLock()
	defer t.mutex.RUnlock()
	set := t.groups[group]
	if set == nil {
		return false
	}
	_, there := set.at[id]
	return there
}

// memberList are the members of a group.
func (t *Table) memberList(group string) []string {
	t.mutex.RLock()
	defer t.mutex.RUnlock()
	if set := t.groups[group]; set != nil {
		return set.list()
	}
	return nil
}

// membersOf are the members of a group as they are told.
func (t *Table) membersOf(group, base string) any {
	ids := t.memberList(group)
	all := make([]any, 0, len(ids))
	for _, id := range ids {
		if told := t.member(id, base); told != nil {
			all = append(all, told)
		}
	}
	return all
}

// member is a member as it is told.
func (t *Table) member(id, base string) map[string]any {
	r := t.Find("", id)
	if r == nil {
		return nil
	}
	told := map[string]any{"value": id, "type": r.Kind, "$ref": base + "/" + r.Kind + "s/" + id}
	display, _ := r.Doc()["displayName"].(string)
	if display == "" {
		display, _ = r.Doc()["userName"].(string)
	}
	if display != "" {
		told["display"] = display
	}
	return told
}

// groupsOf are the groups that somebody is in, also by others, as they are told: first those that he is in directly.
func (t *Table) groupsOf(id, base string) any {
	var all []any
	for _, one := range t.Groups(id) {
		kind := "indirect"
		if one.Direct {
			kind = "direct"
		}
		told := map[string]any{"value": one.ID, "$ref": base + "/Groups/" + one.ID, "type": kind}
		if display, _ := one.Doc()["displayName"].(string); display != "" {
			told["display"] = display
		}
		all = append(all, told)
	}
	return all
}

// Membership is a group that somebody is in.
type Membership struct {
	*Resource
	Direct bool
}

// Groups are the groups that somebody is in, each once, in the order of their making: first those that he is in
// directly.
func (t *Table) Groups(id string) []Membership {
	t.mutex.RLock()
	defer t.mutex.RUnlock()
	if len(t.in[id]) == 0 {
		return nil
	}
	var all []Membership
	seen := map[string]bool{id: true}
	due := []string{id}
	for direct := true; len(due) > 0; direct = false {
		var next []string
		for _, one := range due {
			for group := range t.in[one] {
				if !seen[group] {
					seen[group] = true
					next = append(next, group)
				}
			}
		}
		from := len(all)
		for _, group := range next {
			all = append(all, Membership{Resource: t.all[group], Direct: direct})
		}
		byBirth(all[from:])
		due = next
	}
	return all
}
