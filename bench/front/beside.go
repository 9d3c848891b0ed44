package main

import (
	"bytes"
	"encoding/json"
	"fmt"
	"os"
	"strconv"
	"time"
)

const (
	// peopleMore are added to those of the clinic: with its four actions and twelve resources 64,800 cells.
	peopleMore = 1340
	// repeats is how often the policy that is edited has its rules.
	repeats = 10
	// besideClients ask while a policy is edited.
	besideClients = 64
)

// beside measures asks while nobody edits, and while a policy that each cell of a large table rests on is edited in a
// loop, with so many askers.
func (r run) beside() error {
	state, err := os.ReadFile(r.clinic)
	if err != nil {
		return err
	}
	edited, err := editOf(state)
	if err != nil {
		return err
	}
	for i := 0; i < peopleMore; i++ {
		state = append(state, fmt.Sprintf("{\"do\":\"person.add\",\"name\":\"more-%d\"}\n", i)...)
	}
	for _, askers := range []int{0, 1, 3} {
		if err := r.besideWith(askers, state, edited); err != nil {
			return err
		}
	}
	return nil
}

// besideWith measures with so many askers.
func (r run) besideWith(askers int, state []byte, edited func(int) []byte) error {
	front, err := r.start(fmt.Sprintf("%s/beside-%d", r.folder, askers), "--askers", strconv.Itoa(askers))
	if err != nil {
		return err
	}
	defer front.stop(false)
	if _, err := post(append(state[:len(state):len(state)], append(edited(0), '\n')...)); err != nil {
		return err
	}
	idle, err := front.overHTTP(besideClients, r.time)
	if err != nil {
		return err
	}
	stop, edits := make(chan struct{}), make(chan []time.Duration, 1)
	go func() {
		var took []time.Duration
		defer func() { edits <- took }()
		for i := 1; ; i++ {
			select {
			case <-stop:
				return
			default:
			}
			began := time.Now()
			if reply, err := post(edited(i)); err != nil || !bytes.HasPrefix(reply, []byte(`{"changes"`)) {
				return
			}
			took = append(took, time.Since(began))
		}
	}()
	busy, err := front.overHTTP(besideClients, 3*r.time)
	close(stop)
	took := <-edits
	if err != nil || len(took) == 0 {
		return fmt.Errorf("a policy couldn't be edited: %v", err)
	}
	fmt.Printf("%d askers: asks of %d clients %8.0f a second, slowest of a hundred %v; while a policy is edited %8.0f, %v, %.1f times; "+
		"%d edits, one %v\n", askers, besideClients, idle.rate, idle.slowest.Round(time.Microsecond), busy.rate,
		busy.slowest.Round(time.Microsecond), float64(busy.slowest)/float64(idle.slowest), len(took),
		took[len(took)/2].Round(time.Millisecond))
	return nil
}

// repeated is rules as often as makes each cell take a while, the first of them under a name with a number.
func repeated(rules []any, number int) []any {
	var all []any
	for i := 0; i < repeats; i++ {
		for j, rule := range rules {
			copied := map[string]any{}
			for key, value := range rule.(map[string]any) {
				copied[key] = value
			}
			copied["RuleId"] = fmt.Sprintf("rule-%d-%d", i, j)
			if i+j == 0 {
				copied["RuleId"] = fmt.Sprintf("edit-%d", number)
			}
			all = append(all, copied)
		}
	}
	return all
}

// editOf is edits of the clinic's policy of records, each of which gives a rule another name.
func editOf(state []byte) (func(int) []byte, error) {
	for _, l := range bytes.Split(state, []byte("\n")) {
		var line struct {
			Do       string
			Document struct{ Policy map[string]any }
		}
		if json.Unmarshal(l, &line) != nil || line.Do != "policy.add" || line.Document.Policy["PolicyId"] != "records" {
			continue
		}
		rules, ok := line.Document.Policy["Rule"].([]any)
		if !ok {
			break
		}
		return func(i int) []byte {
			line.Document.Policy["Rule"] = repeated(rules, i)
			written, err := json.Marshal(map[string]any{"do": "policy.replace", "document": line.Document})
			if err != nil {
				return nil
			}
			return written
		}, nil
	}
	return nil, fmt.Errorf("the lines have no policy of records")
}
