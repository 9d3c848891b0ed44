package line

import (
	"errors"
	"io"
	"strings"
	"testing"
	"testing/iotest"
)

func TestRead(t *testing.T) {
	for l, want := range map[string]struct {
		kind   Kind
		number uint64
	}{
		`{"do":"mark"}`:                                  {Mark, 0},
		` { "do" : "mark" , "session" : 15 } `:           {Mark, 15},
		`{"do":"table","do":"mark"}`:                     {Mark, 0},
		`{"do":"mark","do":"table"}`:                     {Report, 0},
		`{"do":5,"do":"mark","session":"x","session":2}`: {Mark, 2},
		`{"d\u006f":"m\u0061rk"}`:                        {Mark, 0},
		`{"do":"notices","session":3}`:                   {Notices, 3},
		`{"do":"mark","session":16}`:                     {Question, 0},
		`{"do":"mark","since":3}`:                        {Question, 0},
		`{"do":"changes","since":70}`:                    {Changes, 70},
		`{"since":70,"session":3,"do":"changes"}`:        {Changes, 70},
		`{"do":"changes"}`:                               {Question, 0},
		`{"do":"changes","since":070}`:                   {Question, 0},
		`{"do":"changes","since":-1}`:                    {Question, 0},
		`{"do":"changes","since":1,"session":16}`:        {Question, 0},
		`{"do":"mark","session":-0}`:                     {Question, 0},
		`{"do":"mark","session":1e0}`:                    {Question, 0},
		`{"do":"mark","session":null}`:                   {Question, 0},
		`{"do":"mark","name":"x"}`:                       {Question, 0},
		`{"do":"mark"}x`:                                 {Question, 0},
		`{"do":"mark"`:                                   {Question, 0},
		`{"do":"mark",}`:                                 {Question, 0},
		`{"DO":"mark"}`:                                  {Question, 0},
		`{"do":"person.add","name":"\"},{"}`:             {Edit, 0},
		`{"x":{"do":"mark"},"do":"ask"}`:                 {Question, 0},
		`{"x":[{"do":"mark"},"]"],"do":"attr.set"}`:      {Edit, 0},
		`["do","mark"]`:                                  {Question, 0},
		``:                                               {Question, 0},
		`{`:                                              {Question, 0},
		`{"a":]`:                                         {Question, 0},
		`{"a":}`:                                         {Question, 0},
		`{"do":"mark\`:                                   {Question, 0},
	} {
		if kind, number := Read([]byte(l)); kind != want.kind || number != want.number {
			t.Errorf("%s is read as %d of number %d", l, kind, number)
		}
	}
}

func TestAsking(t *testing.T) {
	for body, want := range map[string]string{
		`{"Request":{}}`:        `{"do":"ask","request":{"Request":{}}}`,
		"\n {\"a\":\n1}\r\n":    `{"do":"ask","request":{"a": 1}}`,
		`{"a":"}"}`:             `{"do":"ask","request":{"a":"}"}}`,
		`{}},"do":"dump","x":{`: "",
		`{} {}`:                 "",
		`{"a":"\"}`:             "",
		`1`:                     "",
		``:                      "",
		`{"a":1`:                "",
		"{\"a\":\"b\nc\"}":      "",
		"{\"a\nb\":1}":          "",
		"{\n\"a\":\"\\\"\n\"}":  "",
		"{\n\"a\":\"\\n\"\n}":   `{"do":"ask","request":{ "a":"\n" }}`,
	} {
		l, ok := Asking([]byte(body))
		if ok != (want != "") || ok && string(l) != want {
			t.Errorf("%q becomes %s", body, l)
		}
	}
}

func TestCommanding(t *testing.T) {
	for body, want := range map[string]string{
		"":                                `{"do":"day.set"}`,
		" \n":                             `{"do":"day.set"}`,
		"{ }":                             `{ "do":"day.set"}`,
		"{\"day\":\n\"2026-11-28\"}\n":    `{"day": "2026-11-28","do":"day.set"}`,
		`{"do":"person.drop","name":"a"}`: `{"do":"person.drop","name":"a","do":"day.set"}`,
		`{"a":1]`:                         "",
		`{"a":1},{"b":2}`:                 "",
		`["a"]`:                           "",
		"{\"a\":\"\n\"}":                  "",
	} {
		l, ok := Commanding("day.set", []byte(body))
		if ok != (want != "") || ok && string(l) != want {
			t.Errorf("%q becomes %s", body, l)
		}
	}
}

func TestRenumber(t *testing.T) {
	for reply, want := range map[string]string{
		`{"changes":3,"serial":4}`: `{"changes":3,"serial":104}`,
		`{"mark":0}`:               `{"mark":100}`,
		`{"state":{"marks":[{"serial":2,"session":1},{"serial":3,"session":4}],"root":{"Id":"\"serial\":9"},"serial":5}}`: `{"state":{"marks":[{"serial":102,"session":1},{"serial":103,"session":4}],"root":{"Id":"\"serial\":9"},"serial":105}}`,
		`{"refused":6,"sub":2}`:                          `{"refused":6,"sub":2}`,
		`{"evaluations":7}`:                              `{"evaluations":7}`,
		`{"dump":["{\"do\":\"format\",\"version\":2}"]}`: `{"dump":["{\"do\":\"format\",\"version\":2}"]}`,
	} {
		if got := string(Renumber([]byte(reply), func(n uint64) uint64 { return n + 100 })); got != want {
			t.Errorf("%s becomes %s", reply, got)
		}
		if got := string(Renumber([]byte(reply), func(n uint64) uint64 { return n })); got != reply {
			t.Errorf("%s becomes %s", reply, got)
		}
	}
}

// TestEnds changes the ends of replies to `changes`.
func TestEnds(t *testing.T) {
	for end, want := range map[string][2]string{
		`{"changes":[],"serial":7}`:      {`{"changes":[]}`, `{"changes":[],"serial":107}`},
		`ple"}],"serial":0}`:             {`ple"}]}`, `ple"}],"serial":100}`},
		`"serial\":9"}],"serial":5}`:     {`"serial\":9"}]}`, `"serial\":9"}],"serial":105}`},
		`{"changes":[]}`:                 {},
		`{"changes":[],"serial":7,"a":1`: {},
		``:                               {},
	} {
		for i, changed := range []func([]byte) (int, []byte, bool){
			CutSerial, func(end []byte) (int, []byte, bool) {
				return RenumberSerial(end, func(n uint64) uint64 { return n + 100 })
			},
		} {
			stay, behind, ok := changed([]byte(end))
			if ok != (want[i] != "") || ok && end[:stay]+string(behind) != want[i] {
				t.Errorf("%s becomes %s%s, %v", end, end[:stay], behind, ok)
			}
		}
	}
}

// TestAsNotices has the reply to `changes` begin as that to `notices`.
func TestAsNotices(t *testing.T) {
	reply := []byte(`{"changes":[{"a`)
	if IsNotices(reply) || !IsChanges(reply) || IsChanges([]byte(`{"changes":1,"serial":2}`)) {
		t.Error("replies are told apart otherwise")
	}
	if AsNotices(reply); string(reply) != `{"notices":[{"a` {
		t.Errorf("it becomes %s", reply)
	}
}

func TestReplies(t *testing.T) {
	for _, reply := range []string{`{"changes":1}`, `{"changes":1,"serial":}`, `{"changes":1,"serial":2}x`, `{"changes":-1,"serial":2}`, ``} {
		if said, ok := ReadAccepted([]byte(reply)); ok {
			t.Errorf("%s is read as %v", reply, said)
		}
	}
	if number, sub, ok := ReadRefusal([]byte(`{"refused":6,"sub":9}`)); !ok || number != 6 || sub != 9 {
		t.Errorf("a refusal is read as %d, %d, %v", number, sub, ok)
	}
	if _, _, ok := ReadRefusal([]byte(`{"refused":6,"sub":}`)); ok {
		t.Error("what is no refusal is read as one")
	}
}

func TestReader(t *testing.T) {
	long := strings.Repeat("x", Limit)
	r := NewReader(iotest.OneByteReader(strings.NewReader("a\n\n" + long + "\n" + long + "y\nb")))
	for i, want := range []string{"a", "", long, "", "b"} {
		l, err := r.Next()
		if tooLong := i == 3; string(l) != want || errors.Is(err, ErrTooLong) != tooLong || !tooLong && err != nil {
			t.Fatalf("line %d has %d bytes, %v", i, len(l), err)
		}
	}
	if _, err := r.Next(); err != io.EOF {
		t.Errorf("the end is %v", err)
	}
	r = NewReader(iotest.TimeoutReader(iotest.OneByteReader(strings.NewReader("ab"))))
	if l, err := r.Next(); err == nil {
		t.Errorf("half a line is read as %s", l)
	}
}
