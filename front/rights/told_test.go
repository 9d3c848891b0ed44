package rights

import (
	"encoding/json"
	"fmt"
	"math/rand"
	"os"
	"sort"
	"strings"
	"testing"

	"review-front/commands"
	"review-front/line"
	"review-front/profile"
	"review-front/program"
)

// untold has the keys of commands of which policies are told nothing, or not at that key: a document and a reference by
// what they name.
var untold = map[string]bool{
	"values": true, "request": true, "document": true, "reference": true, "decisions": true, "since": true, "from": true,
	"count": true, "documents": true,
}

// TestEachKey compares what policies are told with the program's table of commands.
func TestEachKey(t *testing.T) {
	told := map[string]bool{"module": true}
	for _, one := range read {
		told[one.key] = true
	}
	used := map[string]bool{}
	for word, command := range commands.In(t, "../../tools") {
		for _, key := range command.Keys {
			used[key] = true
			if told[key] == untold[key] {
				t.Errorf("%s has the key %s, of which it isn't said here whether it is told", word, key)
			}
		}
	}
	for key := range told {
		if !used[key] {
			t.Errorf("no command has the key %s", key)
		}
	}
}

// asked is a program of a test.
type asked struct {
	t *testing.T
	p *program.Program
}

func begin(t *testing.T) asked {
	p, err := commandOf(t).Start()
	if err != nil {
		t.Fatal(err)
	}
	t.Cleanup(p.Discard)
	return asked{t, p}
}

// ask asks a line.
func (a asked) ask(l string) string {
	err := a.p.Send([]byte(l))
	if err == nil {
		err = a.p.Flush()
	}
	reply, failed := a.p.Receive()
	if err != nil || failed != nil {
		a.t.Fatal(err, failed)
	}
	return string(reply)
}

// dumping is the line that asks for a dump.
const dumping = `{"do":"dump"}`

// dumped has the lines of a dump.
func (a asked) dumped(reply string) []string {
	var said struct{ Dump []string }
	if err := json.Unmarshal([]byte(reply), &said); err != nil {
		a.t.Fatal(err)
	}
	return said.Dump
}

// toldOf is what policies are told of a line, by ids: texts, and the number of the module.
func toldOf(t *testing.T, l string) map[string]string {
	t.Helper()
	command, ok := line.Do([]byte(l))
	written, err := request(Subject{Name: "ann"}, command, []byte(l))
	if !ok || err != nil {
		t.Fatalf("%q, which the program takes, can't be judged: %v, %v", l, ok, err)
	}
	var said struct {
		Request struct {
			Request map[string]struct {
				Attribute []struct {
					AttributeId string
					Value       any
				}
			}
		}
	}
	if err := json.Unmarshal(written, &said); err != nil {
		t.Fatal(err)
	}
	told := map[string]string{"do": command}
	for _, one := range said.Request.Request["Resource"].Attribute {
		if one.AttributeId == resourceID {
			continue
		}
		if _, twice := told[one.AttributeId]; twice {
			t.Fatalf("%s is told twice: %s", one.AttributeId, written)
		}
		told[one.AttributeId] = fmt.Sprint(one.Value)
	}
	return told
}

// plain is the line that says, in the program's own spelling, what is told of a line, and of what isn't told what it
// says.
func plain(t *testing.T, l string, told map[string]string) string {
	t.Helper()
	var members map[string]any
	from := json.NewDecoder(strings.NewReader(l))
	from.UseNumber()
	if err := from.Decode(&members); err != nil {
		t.Fatal(err)
	}
	for _, at := range []string{"document", "reference"} {
		outer, _ := members[at].(map[string]any)
		for key, inner := range outer {
			if known, is := documents[key]; is && key != "" {
				inner.(map[string]any)[known.id] = told["id"]
				if told["version"] != "" {
					inner.(map[string]any)["Version"] = told["version"]
				}
				members[at] = map[string]any{key: inner}
			}
		}
	}
	for key, value := range told {
		switch _, there := members[key]; {
		case !there:
		case key == "module":
			members[key] = json.Number(value)
		case key == "category":
			members[key] = profile.CategoryOf(value)
		default:
			members[key] = value
		}
	}
	written, err := json.Marshal(members)
	if err != nil {
		t.Fatal(err)
	}
	return string(written)
}

// added are the lines of a dump that another one hasn't.
func added(before, after []string) []string {
	there := map[string]bool{}
	for _, l := range before {
		there[l] = true
	}
	var all []string
	for _, l := range after {
		if !there[l] {
			all = append(all, l)
		}
	}
	return all
}

// comparison is two programs, of which one is told lines and the other what policies are told of them.
type comparison struct {
	t           *testing.T
	told, plain asked
	before      []string
	taken       map[string]int
}

// compare sends a line, and where it is taken sees that what policies are told of it is what the program does with it:
// by a line that says just that in the program's own spelling, and by the lines that a dump has more then.
func (c *comparison) compare(l string, want map[string]string) {
	c.t.Helper()
	reply := c.told.ask(l)
	if strings.HasPrefix(reply, `{"refused"`) {
		return
	}
	told := toldOf(c.t, l)
	c.taken[told["do"]]++
	if want != nil && fmt.Sprint(told) != fmt.Sprint(want) {
		c.t.Fatalf("of %s is told %v, and not %v", l, told, want)
	}
	as := plain(c.t, l, told)
	if got := c.plain.ask(as); got != reply {
		c.t.Fatalf("%s is answered %s, and what is told of it, %s, %s", l, reply, as, got)
	}
	if !strings.HasPrefix(reply, `{"changes"`) {
		return
	}
	reply = c.told.ask(dumping)
	if got := c.plain.ask(dumping); got != reply {
		c.t.Fatalf("%s leaves %s, and what is told of it, %s, %s", l, reply, as, got)
	}
	after := c.told.dumped(reply)
	for _, own := range added(c.before, after) {
		does := toldOf(c.t, own)
		if does["do"] == "policy.add" && told["do"] == "policy.replace" {
			does["do"] = "policy.replace"
		}
		if fmt.Sprint(does) != fmt.Sprint(told) {
			c.t.Fatalf("of %s is told %v, and of what it adds to a dump, %s, %v", l, told, own, does)
		}
	}
	c.before = after
}

// TestTold sends random lines in many spellings, and lines of which bytes are others: of each that the program takes
// policies are told what it does with it, and of two that it takes as one the same.
func TestTold(t *testing.T) {
	c := &comparison{t: t, told: begin(t), plain: begin(t), taken: map[string]int{}}
	c.before = c.told.dumped(c.told.ask(dumping))
	s := spelling{rand.New(rand.NewSource(5))}
	table := commands.In(t, "../../tools")
	var words []string
	for word := range table {
		words = append(words, word)
	}
	sort.Strings(words)
	lines := 6_000
	if os.Getenv("FRONT_ALL") != "" {
		lines = 30_000
	}
	for i := 0; i < lines; i++ {
		word := s.one(words...)
		l, want := s.spelled(word, table[word].Keys)
		if i%3 > 0 {
			c.compare(l, want)
			continue
		}
		at := s.Intn(len(l))
		switch s.Intn(3) {
		case 0:
			l = l[:at] + l[at+1:]
		case 1:
			l = l[:at] + string([]byte{byte(s.Intn(256))}) + l[at:]
		case 2:
			l = l[:at] + s.one(`"`, `\`, `\ud800`, `\u0000`, "0", "Z", ".", "{", "}", ",", ":", "é", "\xff", "A") + l[at:]
		}
		c.compare(strings.ReplaceAll(l, "\n", " "), nil)
	}
	for _, word := range words {
		// Requests aren't made here, and neither are serials.
		if needs := word != "ask" && word != "changes"; needs && c.taken[word] < 5 {
			t.Errorf("%s was taken %d times alone", word, c.taken[word])
		}
	}
	t.Logf("taken were %v", c.taken)
}
