package scim

import (
	"encoding/json"
	"fmt"
	"math/rand"
	"sort"
	"strings"
	"testing"
	"time"
)

// aRow is a user of a model: texts, a truth, a number, a moment, and values of several parts.
type aRow struct {
	id, name, title, department string
	active                      string // true, false or nothing
	cost                        int    // 0: none
	hired                       string
	mails                       []aMail
}

type aMail struct {
	value, kind string
	primary     bool
}

// asked is a filter of the model: what it says, and whether it is so of a user.
type asked struct {
	text string
	is   func(aRow) bool
}

// extension is a schema with a number and a moment.
var extension = &Schema{ID: "urn:x:User", Name: "X", Attributes: []*Attribute{
	{Name: "cost", Type: TypeInteger, Mutability: "readWrite", Returned: "default"},
	{Name: "hired", Type: TypeDateTime, Mutability: "readWrite", Returned: "default"},
}}

// rowsBy makes users by chance.
func rowsBy(random *rand.Rand, count int) []aRow {
	pick := func(words ...string) string { return words[random.Intn(len(words))] }
	var all []aRow
	for i := 0; i < count; i++ {
		one := aRow{
			name: fmt.Sprintf("%s%d", pick("ann", "Bob", "zoé"), i), title: pick("", "Dr", "dr", "Prof. \"X\"", "a b"),
			department: pick("", "er", "ICU", "icu"), active: pick("", "true", "false"), cost: random.Intn(4) * random.Intn(30),
			hired: pick("", "2020-01-01T00:00:00Z", "2020-01-01T01:00:00+01:00", "2021-06-01T12:00:00.5Z"),
		}
		for j := 0; j < random.Intn(3); j++ {
			mail := aMail{value: pick("a@x", "B@x", "c@y"), kind: pick("", "work", "home"), primary: j == 0}
			one.mails = append(one.mails, mail)
		}
		all = append(all, one)
	}
	return all
}

// body is a user as it is sent.
func (r aRow) body() map[string]any {
	body := map[string]any{"userName": r.name}
	if r.title != "" {
		body["title"] = r.title
	}
	if r.active != "" {
		body["active"] = r.active
	}
	if r.department != "" {
		body[EnterpriseSchema] = map[string]any{"department": r.department}
	}
	more := map[string]any{}
	if r.cost != 0 {
		more["cost"] = json.Number(fmt.Sprint(r.cost))
	}
	if r.hired != "" {
		more["hired"] = r.hired
	}
	body["urn:x:User"] = more
	var mails []any
	for _, one := range r.mails {
		mail := map[string]any{"value": one.value, "primary": one.primary}
		if one.kind != "" {
			mail["type"] = one.kind
		}
		mails = append(mails, mail)
	}
	body["emails"] = mails
	return body
}

// compareTexts says how two texts compare, in whatever case.
func compareTexts(op, one, other string) bool {
	one, other = strings.ToLower(one), strings.ToLower(other)
	switch op {
	case "eq", "ne":
		return one == other
	case "co":
		return strings.Contains(one, other)
	case "sw":
		return strings.HasPrefix(one, other)
	case "ew":
		return strings.HasSuffix(one, other)
	}
	return inOrderOf(op, strings.Compare(one, other))
}

func inOrderOf(op string, order int) bool {
	return map[string]bool{
		"eq": order == 0, "ne": order == 0, "gt": order > 0, "ge": order >= 0, "lt": order < 0, "le": order <= 0,
	}[op]
}

// cased writes words of a filter in some case.
func cased(random *rand.Rand, word string) string {
	return []string{word, strings.ToUpper(word), strings.Title(word)}[random.Intn(3)]
}

var textOps = []string{"eq", "ne", "co", "sw", "ew", "gt", "ge", "lt", "le"}

// ofText is a filter on a text.
func ofText(random *rand.Rand, name string, get func(aRow) []string) asked {
	if random.Intn(6) == 0 {
		return asked{name + " " + cased(random, "pr"), func(r aRow) bool { return len(get(r)) > 0 }}
	}
	op := textOps[random.Intn(len(textOps))]
	with := []string{"ann1", "BOB", "dr", "d", "", "icu", "@x", "a@x", "work", "prof. \"x", "é"}[random.Intn(11)]
	quoted, _ := json.Marshal(with)
	return asked{name + " " + cased(random, op) + " " + string(quoted), func(r aRow) bool {
		for _, one := range get(r) {
			if compareTexts(op, one, with) {
				return op != "ne"
			}
		}
		return op == "ne"
	}}
}

// one is a text, or none.
func one(text string) []string {
	if text == "" {
		return nil
	}
	return []string{text}
}

// leafBy is a filter on one attribute.
func leafBy(random *rand.Rand) asked {
	switch random.Intn(9) {
	case 0:
		return ofText(random, cased(random, "userName"), func(r aRow) []string { return one(r.name) })
	case 1:
		return ofText(random, "title", func(r aRow) []string { return one(r.title) })
	case 2:
		name := []string{"department", EnterpriseSchema + ":department", strings.ToUpper(EnterpriseSchema) + ":Department"}
		return ofText(random, name[random.Intn(3)], func(r aRow) []string { return one(r.department) })
	case 3:
		name := []string{"emails", "emails.value"}[random.Intn(2)]
		return ofText(random, name, func(r aRow) (all []string) {
			for _, mail := range r.mails {
				all = append(all, mail.value)
			}
			return all
		})
	case 4:
		op, want := []string{"eq", "ne"}[random.Intn(2)], []string{"true", "false"}[random.Intn(2)]
		value := []string{want, `"` + strings.Title(want) + `"`}[random.Intn(2)]
		return asked{"active " + op + " " + value, func(r aRow) bool { return (r.active == want) == (op == "eq") }}
	case 5:
		op, than := []string{"eq", "ne", "gt", "ge", "lt", "le"}[random.Intn(6)], random.Intn(40)
		return asked{fmt.Sprintf("urn:x:User:cost %s %d", op, than), func(r aRow) bool {
			order := 0
			if r.cost < than {
				order = -1
			} else if r.cost > than {
				order = 1
			}
			return r.cost != 0 && inOrderOf(op, order) != (op == "ne") || r.cost == 0 && op == "ne"
		}}
	case 6:
		op := []string{"eq", "gt", "ge", "lt", "le"}[random.Intn(5)]
		than := time.Date(2020, 1, 1, 0, 0, random.Intn(2), 0, time.UTC)
		return asked{fmt.Sprintf("hired %s %q", op, than.Format(time.RFC3339)), func(r aRow) bool {
			at, err := time.Parse(time.RFC3339, r.hired)
			return err == nil && (at.Before(than) && (op == "lt" || op == "le") ||
				at.After(than) && (op == "gt" || op == "ge") || at.Equal(than) && op != "lt" && op != "gt")
		}}
	case 7:
		return asked{"title " + []string{"eq", "EQ"}[random.Intn(2)] + " null", func(r aRow) bool { return r.title == "" }}
	}
	inner := mailBy(random, 2)
	return asked{"emails[" + inner.text + "]", func(r aRow) bool {
		for _, mail := range r.mails {
			if inner.is(aRow{mails: []aMail{mail}}) {
				return true
			}
		}
		return false
	}}
}

// mailBy is a filter on one address.
func mailBy(random *rand.Rand, deep int) asked {
	if deep > 0 && random.Intn(2) == 0 {
		return joinedBy(random, func() asked { return mailBy(random, deep-1) })
	}
	switch random.Intn(3) {
	case 0:
		return ofText(random, "type", func(r aRow) []string { return one(r.mails[0].kind) })
	case 1:
		return ofText(random, "value", func(r aRow) []string { return one(r.mails[0].value) })
	}
	want := random.Intn(2) == 0
	return asked{fmt.Sprintf("primary eq %v", want), func(r aRow) bool { return r.mails[0].primary == want }}
}

// filterBy is any filter.
func filterBy(random *rand.Rand, deep int) asked {
	if deep == 0 || random.Intn(3) == 0 {
		return leafBy(random)
	}
	return joinedBy(random, func() asked { return filterBy(random, deep-1) })
}

// joinedBy joins filters: `and` binds closer than `or`, and what is joined otherwise stands in parentheses.
func joinedBy(random *rand.Rand, next func() asked) asked {
	a, b, c := next(), next(), next()
	switch random.Intn(4) {
	case 0:
		return asked{cased(random, "not") + " (" + a.text + ")", func(r aRow) bool { return !a.is(r) }}
	case 1:
		return asked{"(" + a.text + ") and (" + b.text + ")", func(r aRow) bool { return a.is(r) && b.is(r) }}
	case 2:
		return asked{"(" + a.text + ") OR (" + b.text + ") and (" + c.text + ")",
			func(r aRow) bool { return a.is(r) || b.is(r) && c.is(r) }}
	}
	return asked{"((" + a.text + ") or (" + b.text + ")) and (" + c.text + ")",
		func(r aRow) bool { return (a.is(r) || b.is(r)) && c.is(r) }}
}

// TestFilters asks random filters of random users, and compares what they mean with a model.
func TestFilters(t *testing.T) {
	random := rand.New(rand.NewSource(7))
	kinds, table := NewKinds(extension), NewTable("")
	rows := rowsBy(random, 60)
	for i := range rows {
		rows[i].id = fmt.Sprint("id", i)
		d := table.Draft(kinds.User, nil)
		if err := d.Whole(rows[i].body()); err != nil {
			t.Fatal(err)
		}
		apply(t, table, d, rows[i].id, nil)
	}
	some := 0
	for try := 0; try < 5000; try++ {
		f := filterBy(random, 3)
		page, err := table.Ask(kinds, Query{Kinds: []*Kind{kinds.User}, Filter: f.text, Start: 1, Count: 1000}, "")
		if err != nil {
			t.Fatalf("%s: %v", f.text, err)
		}
		var got, want []string
		for _, v := range page.Views {
			got = append(got, v.ID)
		}
		for _, row := range rows {
			if f.is(row) {
				want = append(want, row.id)
			}
		}
		if fmt.Sprint(got) != fmt.Sprint(want) || page.Total != len(want) {
			t.Fatalf("%s means %v, and not %v", f.text, got, want)
		}
		if len(want) > 0 && len(want) < len(rows) {
			some++
		}
	}
	if some < 1200 {
		t.Errorf("only %d filters mean some", some)
	}
}

// apply has a draft count at once.
func apply(t *testing.T, table *Table, d *Draft, id string, from *Resource) {
	t.Helper()
	r, err := d.Record(id, from)
	if err != nil || r == nil {
		t.Fatal(r, err)
	}
	r.Serial, r.Time = table.Last()+1, time.Now()
	if err := table.Judge(r); err != nil {
		t.Fatal(err)
	}
	if err := table.Apply(r); err != nil {
		t.Fatal(err)
	}
}

// TestPages sorts users by several attributes, up and down, and reads them by pages: each is told once, in order.
func TestPages(t *testing.T) {
	random := rand.New(rand.NewSource(8))
	kinds, table := NewKinds(extension), NewTable("")
	rows := rowsBy(random, 57)
	for i := range rows {
		rows[i].id = fmt.Sprint("id", i)
		d := table.Draft(kinds.User, nil)
		if err := d.Whole(rows[i].body()); err != nil {
			t.Fatal(err)
		}
		apply(t, table, d, rows[i].id, nil)
	}
	for by, less := range map[string]func(a, b aRow) (has, other, less bool){
		"userName": func(a, b aRow) (bool, bool, bool) {
			return true, true, strings.ToLower(a.name) < strings.ToLower(b.name)
		},
		"title": func(a, b aRow) (bool, bool, bool) {
			return a.title != "", b.title != "", strings.ToLower(a.title) < strings.ToLower(b.title)
		},
		"urn:x:User:cost": func(a, b aRow) (bool, bool, bool) { return a.cost != 0, b.cost != 0, a.cost < b.cost },
		"active": func(a, b aRow) (bool, bool, bool) {
			return a.active != "", b.active != "", a.active < b.active
		},
	} {
		for _, down := range []bool{false, true} {
			want := append([]aRow(nil), rows...)
			sort.SliceStable(want, func(i, j int) bool {
				if down {
					i, j = j, i
				}
				has, other, is := less(want[i], want[j])
				return has && !other || has && other && is
			})
			var ids, got []string
			for _, row := range want {
				ids = append(ids, row.id)
			}
			for start := 1; start <= len(rows); start += 10 {
				q := Query{Kinds: []*Kind{kinds.User}, SortBy: by, Descending: down, Start: start, Count: 10}
				page, err := table.Ask(kinds, q, "")
				if err != nil || page.Total != len(rows) {
					t.Fatal(page, err)
				}
				for _, v := range page.Views {
					got = append(got, v.ID)
				}
			}
			if fmt.Sprint(got) != fmt.Sprint(ids) {
				t.Errorf("by %s, down %v, the order is %v, and not %v", by, down, got, ids)
			}
		}
	}
}
