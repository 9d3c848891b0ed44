package main

import (
	"bytes"
	"encoding/json"
	"fmt"
	"io"
	"net/http"
	"os"
	"path/filepath"
	"sort"
	"strconv"
	"strings"
	"time"
)

const (
	// rooted are the people, actions and resources of a table over which a root is set: 1,000,000 cells.
	rootedPeople, rootedActions, rootedResources = 1000, 10, 100
	// departments are those of its people, of which each policy looks at half.
	departments = 20
	// rootRuns is how often the root is set with history, and how often without, in turn.
	rootRuns = 10
	// unkeptAddress is that of the front without history.
	unkeptAddress = "127.0.0.1:18081"
)

// rootTook is what setting a root took.
type rootTook struct {
	reply  time.Duration // until its reply
	user   time.Duration // of the front and the table's program until then, by the processor
	behind time.Duration // the same of the front and all its programs, until it was known what changed
}

// history measures a new root over 1,000,000 cells, each of which it changes, with and without what edits changed being
// kept: by turns, since what else the machine does counts in both.
func (r run) history() error {
	kept, err := r.rooted(address, "kept")
	if err != nil {
		return err
	}
	defer kept.stop(false)
	unkept, err := r.rooted(unkeptAddress, "unkept", "--keep-history", "-1s")
	if err != nil {
		return err
	}
	defer unkept.stop(false)
	var with, without []rootTook
	for i := 0; i < rootRuns; i++ {
		one, err := kept.root(address, i%2+1, true)
		if err != nil {
			return err
		}
		other, err := unkept.root(unkeptAddress, i%2+1, false)
		if err != nil {
			return err
		}
		with, without = append(with, one), append(without, other)
	}
	for _, one := range []struct {
		what string
		of   func(rootTook) time.Duration
	}{
		{"until the reply", func(t rootTook) time.Duration { return t.reply }},
		{"user time until the reply", func(t rootTook) time.Duration { return t.user }},
		{"user time of all programs", func(t rootTook) time.Duration { return t.behind }},
	} {
		a, b := spread(with, one.of), spread(without, one.of)
		fmt.Printf("a root over 1,000,000 cells, %s: with history %s, without %s, %.2f times\n", one.what, a.text, b.text,
			float64(a.median)/float64(b.median))
	}
	load, _ := os.ReadFile("/proc/loadavg")
	bytes, err := sizeOf(filepath.Join(r.folder, "kept", "changes-*"))
	fmt.Printf("%d runs each; %d bytes for each root; load %s", rootRuns, bytes/(rootRuns+1), load)
	return err
}

// spreads are the least, the median and the most of some runs.
type spreads struct {
	median time.Duration
	text   string
}

func spread(all []rootTook, of func(rootTook) time.Duration) spreads {
	var some []time.Duration
	for _, one := range all {
		some = append(some, of(one))
	}
	sort.Slice(some, func(i, j int) bool { return some[i] < some[j] })
	at := func(i int) string { return fmt.Sprintf("%.2f", some[i].Seconds()) }
	return spreads{some[len(some)/2], at(len(some)/2) + " s (" + at(0) + " to " + at(len(some)-1) + ")"}
}

// sizeOf is how many bytes some files have.
func sizeOf(pattern string) (bytes int64, err error) {
	names, err := filepath.Glob(pattern)
	for _, name := range names {
		about, err := os.Stat(name)
		if err != nil {
			return 0, err
		}
		bytes += about.Size()
	}
	return bytes, err
}

// rooted starts a front over a table of 1,000,000 cells, with two policies of which one is the root.
func (r run) rooted(address, folder string, more ...string) (*started, error) {
	front, err := r.startAt(address, append([]string{
		"--journal", filepath.Join(r.folder, folder), "--people", strconv.Itoa(rootedPeople),
		"--actions", strconv.Itoa(rootedActions), "--resources", strconv.Itoa(rootedResources),
		"--cells", strconv.Itoa(rootedPeople * rootedActions * rootedResources), "--reply-time", "0", "--replay-time", "0",
		"--patience", "10m",
	}, more...)...)
	if err != nil {
		return nil, err
	}
	replies, err := postAt(address, rootedState())
	if err == nil && bytes.Contains(replies, []byte("refused")) {
		err = fmt.Errorf("a line is refused: %.300s", replies[bytes.Index(replies, []byte(`{"refused`)):])
	}
	if err != nil {
		front.stop(false)
		return nil, err
	}
	return front, nil
}

// rootedState are the lines of that table.
func rootedState() []byte {
	var all bytes.Buffer
	add := func(form string, words ...any) { fmt.Fprintf(&all, form+"\n", words...) }
	for i := 0; i < rootedActions; i++ {
		add(`{"do":"action.add","name":"action-%d"}`, i)
	}
	for i := 0; i < rootedResources; i++ {
		add(`{"do":"resource.add","name":"resource-%d"}`, i)
	}
	for i := 0; i < rootedPeople; i++ {
		add(`{"do":"attr.set","category":"AccessSubject","entity":"person-%d","attribute":"department","type":"string",`+
			`"values":["d%d"]}`, i, i%departments)
		add(`{"do":"person.add","name":"person-%d"}`, i)
	}
	add(`%s`, halved("policy-0", "Permit", "Deny"))
	add(`%s`, halved("policy-1", "Deny", "Permit"))
	add(`%s`, rootOf(0))
	return all.Bytes()
}

// rootOf sets the root to one of two policies.
func rootOf(number int) string {
	return fmt.Sprintf(`{"do":"root.set","reference":{"PolicyIdReference":{"Id":"policy-%d"}}}`, number)
}

// halved adds a policy that answers half of the departments so, and the others otherwise.
func halved(id, first, then string) []byte {
	var half []any
	for i := 0; i < departments/2; i++ {
		half = append(half, map[string]any{"AttributeValue": map[string]any{"Value": fmt.Sprintf("d%d", i)}})
	}
	const functions = "urn:oasis:names:tc:xacml:1.0:function:string-"
	apply := func(function string, arguments ...any) any {
		return map[string]any{"Apply": map[string]any{"FunctionId": functions + function, "Arguments": arguments}}
	}
	works := map[string]any{"AttributeDesignator": map[string]any{
		"Category": "AccessSubject", "AttributeId": "department", "DataType": "string", "MustBePresent": false,
	}}
	looks := apply("at-least-one-member-of", apply("bag", half...), works)
	written, err := json.Marshal(map[string]any{"do": "policy.add", "document": map[string]any{"Policy": map[string]any{
		"PolicyId": id, "Version": "1",
		"RuleCombiningAlgId": "urn:oasis:names:tc:xacml:1.0:rule-combining-algorithm:first-applicable",
		"Rule": []any{
			map[string]any{"RuleId": "half", "Effect": first, "Condition": looks},
			map[string]any{"RuleId": "others", "Effect": then},
		},
	}}})
	if err != nil {
		panic(err)
	}
	return written
}

// root sets the root to another policy, and says what that took.
func (s *started) root(address string, number int, keeps bool) (took rootTook, err error) {
	before, table, err := s.used()
	if err != nil {
		return took, err
	}
	began := time.Now()
	reply, err := postAt(address, []byte(rootOf(number%2)+"\n"))
	took.reply = time.Since(began)
	if err != nil {
		return took, err
	}
	var told struct{ Changes, Serial uint64 }
	if err := json.Unmarshal(reply, &told); err != nil || told.Changes != rootedPeople*rootedActions*rootedResources {
		return took, fmt.Errorf("a root is answered %.200s", reply)
	}
	_, then, err := s.used()
	if err != nil {
		return took, err
	}
	took.user = then - table
	for keeps {
		answer, err := http.Get(fmt.Sprintf("http://%s/edits?since=%d", address, told.Serial-1))
		if err != nil {
			return took, err
		}
		content, err := io.ReadAll(answer.Body)
		answer.Body.Close()
		if err != nil {
			return took, err
		}
		if answer.StatusCode == http.StatusOK && strings.Contains(string(content), `"unknown":[]`) {
			break
		}
		time.Sleep(100 * time.Millisecond)
	}
	after, _, err := s.used()
	took.behind = after - before
	return took, err
}

// used is the user time that a front and all its programs took, and that which it and the table's program took, which
// is the first that it started.
func (s *started) used() (all, table time.Duration, err error) {
	own := s.process.Process.Pid
	names, err := filepath.Glob("/proc/[0-9]*/stat")
	if err != nil {
		return 0, 0, err
	}
	first, program := 0, time.Duration(0)
	for _, name := range names {
		stat, err := os.ReadFile(name)
		number, wrong := strconv.Atoi(filepath.Base(filepath.Dir(name)))
		if err != nil || wrong != nil {
			continue // it has ended meanwhile
		}
		fields := bytes.Fields(stat[bytes.LastIndexByte(stat, ')')+1:])
		taken := times(fields[11])
		switch {
		case number == own:
			all, table = all+taken, table+taken
		case string(fields[1]) == strconv.Itoa(own):
			all += taken
			if first == 0 || number < first {
				first, program = number, taken
			}
		}
	}
	return all, table + program, nil
}
