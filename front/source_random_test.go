package main

import (
	"context"
	"encoding/json"
	"fmt"
	"io"
	"math/rand"
	"os"
	"sort"
	"strings"
	"testing"
	"time"

	"review-front/source"
)

// company is people and things at a source that change at random.
type company struct {
	random *rand.Rand
	people map[string][3]string
	things map[string]string
	hired  int
}

// change changes one of them.
func (c *company) change() {
	team := func() string { return []string{"it", "hr", "it|hr", "", "ward", "ward|it"}[c.random.Intn(6)] }
	someone := func() string {
		all := make([]string, 0, len(c.people))
		for name := range c.people {
			all = append(all, name)
		}
		sort.Strings(all)
		return all[c.random.Intn(len(all))]
	}
	switch n := c.random.Intn(10); {
	case len(c.people) > 150:
		delete(c.people, someone())
	case n < 3 || len(c.people) < 20:
		c.hired++
		c.people[fmt.Sprintf("p%d", c.hired)] = [3]string{team(), fmt.Sprint(c.random.Intn(2) == 0), "2020-01-01"}
	case n < 5 && len(c.people) > 100:
		delete(c.people, someone())
	case n < 6:
		name := someone() // is renamed
		c.hired++
		c.people[fmt.Sprintf("p%d", c.hired)] = c.people[name]
		delete(c.people, name)
	case n < 9:
		since := fmt.Sprintf("20%02d-03-01", c.random.Intn(99))
		c.people[someone()] = [3]string{team(), fmt.Sprint(c.random.Intn(2) == 0), since}
	default:
		if name := fmt.Sprintf("t%d", c.random.Intn(8)); c.random.Intn(4) == 0 {
			delete(c.things, name)
		} else {
			c.things[name] = team()
		}
	}
}

// write writes both files, each at once.
func (c *company) write(s *sourced) {
	people, things := strings.Builder{}, strings.Builder{}
	people.WriteString("n,teams,cleared,since\n")
	for name, one := range c.people {
		fmt.Fprintf(&people, "%s,%s,%s,%s\n", name, one[0], one[1], one[2])
	}
	for name, teams := range c.things {
		told, _ := json.Marshal(map[string]any{"n": name, "teams": strings.Split(teams, "|")})
		things.Write(append(told, '\n'))
	}
	for name, content := range map[string]string{"people.csv": people.String(), "things.jsonl": things.String()} {
		s.write(name+".new", content)
		if err := os.Rename(s.folder+"/"+name+".new", s.folder+"/"+name); err != nil {
			s.t.Fatal(err)
		}
	}
}

const companySource = `{"source":"company","module":1,
	"people":{"csv":{"file":"people.csv"},"name":"n","attributes":{"teams":{"from":"teams","list":"|"},
		"cleared":{"from":"cleared","type":"boolean"},"since":{"from":"since","type":"date"}}},
	"resources":{"lines":{"file":"things.jsonl"},"name":"n","attributes":{"teams":{"from":"teams"}}}}`

// teamPolicy permits who has a team of the thing, and is cleared.
var teamPolicy = []string{
	`{"do":"action.add","name":"use"}`,
	`{"do":"policy.add","document":{"Policy":{"PolicyId":"p","Version":"1","RuleCombiningAlgId":` +
		`"urn:oasis:names:tc:xacml:3.0:rule-combining-algorithm:deny-unless-permit","Rule":[` +
		`{"RuleId":"team","Effect":"Permit","Condition":{"Apply":{` +
		`"FunctionId":"urn:oasis:names:tc:xacml:1.0:function:and","Arguments":[` +
		`{"Apply":{"FunctionId":"urn:oasis:names:tc:xacml:1.0:function:boolean-is-in","Arguments":[` +
		`{"AttributeValue":{"Value":true}},` +
		`{"AttributeDesignator":{"Category":"urn:oasis:names:tc:xacml:1.0:subject-category:access-subject",` +
		`"AttributeId":"cleared","DataType":"boolean"}}]}},` +
		`{"Apply":{"FunctionId":"urn:oasis:names:tc:xacml:1.0:function:string-at-least-one-member-of","Arguments":[` +
		`{"AttributeDesignator":{"Category":"urn:oasis:names:tc:xacml:1.0:subject-category:access-subject",` +
		`"AttributeId":"teams","DataType":"string"}},` +
		`{"AttributeDesignator":{"Category":"urn:oasis:names:tc:xacml:3.0:attribute-category:resource",` +
		`"AttributeId":"teams","DataType":"string"}}]}}]}}}]}}}`,
	`{"do":"root.set","reference":{"PolicyIdReference":{"Id":"p"}}}`,
}

// TestSourceRandom changes a source at random while it is brought again and again, and kills the front in between: in
// the end the state is that of a service which was told the source afresh.
func TestSourceRandom(t *testing.T) {
	changes := number("FRONT_CHANGES", 400)
	folder := t.TempDir()
	s := newSourced(t, begin(t, folder, "--try-time", "1m"))
	s.f.accept(teamPolicy...)
	s.write("company.json", companySource)
	c := &company{random: rand.New(rand.NewSource(7)), people: map[string][3]string{}, things: map[string]string{}}
	for done, kills := 0, 0; done < changes; {
		for n := 1 + c.random.Intn(20); n > 0 && done < changes; n-- {
			c.change()
			done++
		}
		c.write(s)
		ctx, stop := context.WithCancel(context.Background())
		ended := make(chan int, 1)
		address := "http://" + s.f.address
		go func() {
			words := []string{"run", "--front", address, "--at-most", "100%", "--patience", "0s", s.folder}
			ended <- source.Run(ctx, words, io.Discard, io.Discard)
		}()
		if done > (kills+1)*(80+changes/100) {
			kills++
			time.Sleep(time.Duration(c.random.Intn(40)) * time.Millisecond)
			s.f.kill()
			s.f = begin(t, folder, "--try-time", "1m")
		}
		<-ended
		stop()
	}
	s.does("company: ", "run", "--at-most", "100%")
	s.does("company: 0 added, 0 set, 0 dropped", "plan")
	afresh := &sourced{t, begin(t, t.TempDir()), s.folder}
	afresh.f.accept(teamPolicy...)
	afresh.does("company: ", "run")
	for _, path := range []string{"/dump", "/table"} {
		if got, want := inOrder(t, s.f.must(path)), inOrder(t, afresh.f.must(path)); got != want {
			t.Errorf("%s differs from that of a front which was told the source afresh:\n%.3000s\n%.3000s", path, got, want)
		}
	}
	if permits := s.f.must("/counts"); !strings.Contains(permits, `"Permit":`) || strings.Contains(permits, `"Permit":0`) {
		t.Errorf("nobody may anything: %s", permits)
	}
}

// inOrder are the members of the one list of a reply, in the order of their bytes: names come in another order.
func inOrder(t *testing.T, reply string) string {
	t.Helper()
	var told map[string][]json.RawMessage
	if err := json.Unmarshal([]byte(reply), &told); err != nil {
		t.Fatal(err)
	}
	var all []string
	for _, members := range told {
		for _, member := range members {
			all = append(all, string(member))
		}
	}
	sort.Strings(all)
	return strings.Join(all, "\n")
}
