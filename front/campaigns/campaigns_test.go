package campaigns

import (
	"bytes"
	"encoding/json"
	"fmt"
	"io"
	"strings"
	"testing"
	"time"

	"review-front/changed"
)

// said answers questions from what a test says, each by the line that asks it.
type said struct {
	t     testing.TB
	lines map[string]string
	cells string
}

func (s *said) Ask(lines ...[]byte) ([][]byte, error) {
	var replies [][]byte
	for _, l := range lines {
		reply, there := s.lines[string(l)]
		if !there {
			return nil, fmt.Errorf("nobody knows %s", l)
		}
		replies = append(replies, []byte(reply))
	}
	return replies, nil
}

func (s *said) Tell(_ []byte, to io.Writer) error {
	for at := 0; at < len(s.cells); at += 7 { // in small parts
		end := at + 7
		if end > len(s.cells) {
			end = len(s.cells)
		}
		if _, err := io.WriteString(to, s.cells[at:end]); err != nil {
			return err
		}
	}
	return nil
}

// aCell is a cell as the program tells it.
func aCell(person, action, resource, decision, rule string) string {
	return fmt.Sprintf(`{"action":%q,"advice":[],"decision":%q,`+
		`"obligations":[{"id":"a \"]} b"}],"person":%q,"resource":%q,`+
		`"status":"ok","why":[{"path":[["Policy","p","1"]],"rule":%q}]}`, action, decision, person, resource, rule)
}

// clinicOf answers for three people, one action and two resources, with attributes.
func clinicOf(t testing.TB) *said {
	attribute := func(name, value string) string {
		return fmt.Sprintf(`{"attributes":[{"attribute":%q,"datatype":"string",`+
			`"issuer":null,"module":0,"values":[%q,"x"]}]}`, name, value)
	}
	s := &said{t: t, lines: map[string]string{
		`{"do":"names","list":"people"}`:                                      `{"names":["ann","bob \"b\"","cy"]}`,
		`{"do":"names","list":"actions"}`:                                     `{"names":["read"]}`,
		`{"do":"names","list":"resources"}`:                                   `{"names":["plan","record-1"]}`,
		`{"do":"attributes","category":"AccessSubject","entity":"ann"}`:       attribute("manager", "dan"),
		`{"do":"attributes","category":"AccessSubject","entity":"bob \"b\""}`: attribute("manager", `bob "b"`),
		`{"do":"attributes","category":"AccessSubject","entity":"cy"}`:        `{"attributes":[]}`,
		`{"do":"attributes","category":"Resource","entity":"plan"}`:           attribute("owner", "eve"),
		`{"do":"attributes","category":"Resource","entity":"record-1"}`:       `{"attributes":[]}`,
		`{"do":"attributes","category":"Action","entity":"read"}`:             `{"attributes":[]}`,
	}}
	var cells []string
	for _, person := range []string{"ann", `bob "b"`, "cy"} {
		for _, resource := range []string{"plan", "record-1"} {
			cells = append(cells, aCell(person, "read", resource, "Permit", "r"))
		}
	}
	s.cells = `{"cells":[` + strings.Join(cells, ",") + `]}`
	return s
}

// TestScope makes the items of campaigns whose scopes and reviewers are told in each way.
func TestScope(t *testing.T) {
	for written, want := range map[string]string{
		`{"name":"a","scope":{},"reviewers":[{"name":"z"}]}`: "ann plan z, ann record-1 z, bob plan z, bob record-1 z, " +
			"cy plan z, cy record-1 z",
		`{"name":"a","scope":{"people":{"names":["a*","cy"]},"resources":{"names":["record-*"]}}` +
			`,"reviewers":[{"name":"z"}]}`: "ann record-1 z, " +
			"cy record-1 z",
		`{"name":"a","scope":{"people":{"where":[{"attribute":"manager","values":["dan","x"]}]}}` +
			`,"reviewers":[{"name":"z"}]}`: "ann plan z, " +
			"ann record-1 z, bob plan z, bob record-1 z",
		`{"name":"a","scope":{"people":{"where":[{"attribute":"manager","values":["dan"]}]` +
			`},"resources":{"where":[{"attribute":"owner","values":["eve"]}]}},"reviewers":[{"name":"z"}]}`: "ann plan z",
		`{"name":"a","scope":{},"reviewers":[{"person":"manager"},{"resource":"owner"},{"name":"z"}]}`: "ann plan dan, ann record-1 dan, " +
			"bob plan eve, bob record-1 z, cy plan eve, cy record-1 z",
		`{"name":"a","scope":{},"self":true` +
			`,"reviewers":[{"person":"manager"},{"name":"z"}]}`: "ann plan dan, ann record-1 dan, " +
			"bob plan bob, bob record-1 bob, cy plan z, cy record-1 z",
		`{"name":"a","scope":{},"reviewers":[{"name":"y","people":["c*"],"resources":["plan"]},{"name":"z"}]}`: "ann plan z, ann record-1 z, " +
			"bob plan z, bob record-1 z, cy plan y, cy record-1 z",
	} {
		d, err := Define([]byte(written))
		if err != nil {
			t.Fatal(written, err)
		}
		items, err := Make(d, clinicOf(t))
		if err != nil {
			t.Fatal(err)
		}
		var got []string
		for number, cell := range items.Cells {
			of := items.Cell(uint32(number))
			name, _, _ := strings.Cut(Plain(of.Person), " ")
			who, _, _ := strings.Cut(items.Reviewers[cell.Reviewer], " ")
			got = append(got, name+" "+of.Resource+" "+who)
			if found, there := items.Find(of); !there || found != uint32(number) {
				t.Errorf("item %d is found as %d", number, found)
			}
		}
		if told := strings.Join(got, ", "); told != want {
			t.Errorf("%s has\n%s\nand not\n%s", written, told, want)
		}
		content, err := items.Marshal()
		if err != nil {
			t.Fatal(err)
		}
		again, err := Unmarshal(content, items.Serial)
		if err != nil || fmt.Sprint(again.Cells, again.Reviewers) != fmt.Sprint(items.Cells, items.Reviewers) {
			t.Errorf("items are read as %v: %v", again, err)
		}
		content[len(content)/2] ^= 1
		if _, err := Unmarshal(content, items.Serial); err == nil {
			t.Error("damaged items are read")
		}
	}
}

// signAs has somebody sign an item of a table, at a serial and a time.
func signAs(t *testing.T, table *Table, campaign string, item uint32, serial uint64, at time.Time) {
	t.Helper()
	page, err := table.List(campaign, Query{Count: 100})
	if err != nil {
		t.Fatal(err)
	}
	for _, group := range page.Groups {
		if len(group.Items) == 2 && group.Items[0].Item == item {
			r := &Record{Do: Keep, Campaign: campaign, Items: []uint32{item, item + 1}, Digest: group.Digest, Serial: serial,
				Time: at, By: "z", Answers: table.named[campaign].items.Answers}
			if err := table.Apply(r, nil); err != nil {
				t.Fatal(err)
			}
			table.Reached(serial)
			return
		}
	}
	t.Fatalf("there is no group of item %d", item)
}

// TestOldest takes over what isn't older than may be, and says why the rest is asked.
func TestOldest(t *testing.T) {
	table, now := NewTable(), time.Date(2026, 11, 30, 12, 0, 0, 0, time.UTC)
	open := func(written string, serial uint64) {
		t.Helper()
		d, err := Define([]byte(written))
		if err != nil {
			t.Fatal(err)
		}
		items, err := table.Judge(&Record{Do: Open, Campaign: d.Name, Definition: d, Time: now}, clinicOf(t))
		if err != nil {
			t.Fatal(err)
		}
		if err := table.Apply(&Record{Do: Open, Campaign: d.Name, Definition: d, Serial: serial, Time: now},
			items); err != nil {
			t.Fatal(err)
		}
		table.Reached(serial)
	}
	open(`{"name":"a","scope":{},"reviewers":[{"name":"z"}]}`, 10)
	signAs(t, table, "a", 0, 11, now.AddDate(0, 0, -366))
	signAs(t, table, "a", 2, 12, now.AddDate(0, 0, -364))
	open(`{"name":"b","scope":{},"reviewers":[{"name":"z"}],"after":"a","oldest":"365d"}`, 13)
	got, err := table.Progress("b")
	if err != nil || got.Taken != 2 || got.Asked["too old"] != 2 || got.Asked["not signed"] != 2 {
		t.Errorf("%+v %v", got, err)
	}
	open(`{"name":"c","scope":{},"reviewers":[{"name":"z"}],"after":"b"}`, 14)
	if got, _ := table.Progress("c"); got.Taken != 2 || got.States["open"] != 4 {
		t.Errorf("%+v", got)
	}
	page, err := table.List("c", Query{States: []State{StateKept}, Count: 10})
	if err != nil || len(page.Groups) != 1 || page.Groups[0].Items[0].Signed.From != "a" ||
		page.Groups[0].Items[0].Signed.Serial != 12 {
		t.Errorf("%+v %v", page, err)
	}
}

// TestUnknown has an edit come of which nobody knows what it changed, and edits of which nothing is kept: each ends all
// sign-offs of before, and tells why.
func TestUnknown(t *testing.T) {
	table, now := NewTable(), time.Date(2026, 11, 30, 12, 0, 0, 0, time.UTC)
	d, err := Define([]byte(`{"name":"a","scope":{},"reviewers":[{"name":"z"}]}`))
	if err != nil {
		t.Fatal(err)
	}
	opened := &Record{Do: Open, Campaign: "a", Definition: d, Time: now, Serial: 10}
	items, err := table.Judge(opened, clinicOf(t))
	if err == nil {
		err = table.Apply(opened, items)
	}
	if err != nil {
		t.Fatal(err)
	}
	table.Reached(10)
	for i, end := range []func(){
		func() {
			if err := table.Edited(&changed.Edit{Serial: 12, Count: 3, By: "ed"}); err != nil {
				t.Fatal(err)
			}
			table.Reached(12)
		},
		func() { table.Unknown(14); table.Reached(14) },
	} {
		signAs(t, table, "a", 0, uint64(11+2*i), now)
		end()
		got, err := table.Progress("a")
		if err != nil || got.States["fell"] != 2 || got.States["kept"] != 0 || got.Fell[0].Items != 2 ||
			!got.Fell[0].Unknown || got.Fell[0].Serial != uint64(12+2*i) {
			t.Errorf("%+v %v", got, err)
		}
	}
	if _, err := table.Progress("b"); err == nil || strings.Contains(err.Error(), "behind serial") {
		t.Error(err)
	}
	table.Begins(9)
	if _, err := table.Progress("b"); err == nil || !strings.Contains(err.Error(), "behind serial 9") {
		t.Error(err)
	}
}

// TestJudged has acts judged by what the program answers at their place: over other answers, over those that aren't of
// the scope any more, without a reason, and behind the end.
func TestJudged(t *testing.T) {
	table, now := NewTable(), time.Date(2026, 11, 30, 12, 0, 0, 0, time.UTC)
	d, err := Define([]byte(`{"name":"a","scope":{"people":{"names":["cy"]}}` +
		`,"reviewers":[{"name":"z"}],"ends":"2026-11-30"}`))
	if err != nil {
		t.Fatal(err)
	}
	program := clinicOf(t)
	opened := &Record{Do: Open, Campaign: "a", Definition: d, Time: now, Serial: 5}
	items, err := table.Judge(opened, program)
	if err == nil {
		err = table.Apply(opened, items)
	}
	if err != nil {
		t.Fatal(err)
	}
	table.Reached(5)
	answer := func(rule, decision string) {
		cell := items.Cell(0)
		program.lines[string(cell.Question())] = `{"cell":` + aCell("cy", "read", "plan", decision, rule) + `}`
	}
	for _, one := range []struct {
		do, rule, decision, why string
		at                      time.Time
		title                   string
	}{
		{Keep, "r", "Permit", "", now, ""},
		{Revoke, "r", "Permit", "no need", now, ""},
		{Keep, "other", "Permit", "", now, "another answer"},
		{Keep, "r", "Deny", "", now, "another answer"},
		{Revoke, "r", "Permit", "", now, "no why"},
		{Keep, "r", "Permit", "", now.AddDate(0, 0, 1), "ended"},
	} {
		seen := []*Answer{items.Answers[0]}
		r := &Record{Do: one.do, Campaign: "a", Items: []uint32{0}, By: "z", Time: one.at, Why: one.why,
			Digest: Digest([]Cell{items.Cell(0)}, seen)}
		r.See(seen)
		answer(one.rule, one.decision)
		_, err := table.Judge(r, program)
		refused, _ := err.(*Refused)
		if one.title == "" && err != nil || one.title != "" && (refused == nil || refused.Title != one.title) {
			t.Errorf("%+v is answered %v", one, err)
		}
	}
	answer("r", "Deny") // what was seen is so, and is none of what is to be signed
	gone, err := ReadAnswer([]byte(program.lines[string(items.Cell(0).Question())]))
	if err != nil {
		t.Fatal(err)
	}
	r := &Record{Do: Keep, Campaign: "a", Items: []uint32{0}, By: "z", Time: now}
	r.Digest = Digest([]Cell{items.Cell(0)}, []*Answer{gone})
	r.See([]*Answer{gone})
	if _, err := table.Judge(r, program); err == nil || !strings.Contains(err.Error(), "nothing to sign") {
		t.Errorf("what is out of the scope is signed: %v", err)
	}
}

// BenchmarkList lists a hundred groups of 1,000, of a hundred items each.
func BenchmarkList(b *testing.B) {
	s := &said{t: b, lines: map[string]string{}}
	var names [3][]string
	for which, count := range []int{1000, 4, 25} {
		for i := 0; i < count; i++ {
			names[which] = append(names[which], fmt.Sprintf("n-%05d", i))
		}
		list, _ := json.Marshal(map[string]any{"names": names[which]})
		s.lines[`{"do":"names","list":"`+lists[which].list+`"}`] = string(list)
	}
	var cells []string
	for _, person := range names[0] {
		for _, action := range names[1] {
			for _, resource := range names[2] {
				cells = append(cells, aCell(person, action, resource, "Permit", "r"))
			}
		}
	}
	table := NewTable()
	d, _ := Define([]byte(`{"name":"a","scope":{},"reviewers":[{"name":"z"}]}`))
	s.cells = `{"cells":[` + strings.Join(cells, ",") + `]}`
	began := time.Now()
	items, err := Make(d, s)
	if err != nil {
		b.Fatal(err)
	}
	b.Logf("made in %v", time.Since(began))
	if err := table.Apply(&Record{Do: Open, Campaign: "a", Definition: d, Serial: 1}, items); err != nil {
		b.Fatal(err)
	}
	table.Reached(1)
	b.ResetTimer()
	for i := 0; i < b.N; i++ {
		page, err := table.List("a", Query{Reviewers: []string{"z"}, Count: 100})
		if err != nil {
			b.Fatal(err)
		}
		if i%2 == 1 {
			var to bytes.Buffer
			_ = json.NewEncoder(&to).Encode(page)
		}
	}
}
