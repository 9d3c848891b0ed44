package served

import (
	"context"
	"encoding/json"
	"errors"
	"fmt"
	"net/http"
	"sync"
)

// Categories are those of the lists.
var Categories = map[string]string{"people": "AccessSubject", "actions": "Action", "resources": "Resource"}

const (
	// readers is how many bodies of questions are on their way at a time.
	readers = 4
	// bodyBytes is how long such a body is: the front keeps the connection of one that has at most 64 KiB.
	bodyBytes = 60_000
)

// Limit is how many of something there may be, and are.
type Limit struct{ Most, Taken uint64 }

// State is what a front says that it has.
type State struct {
	Serial  uint64
	Permits uint64
	Limits  map[string]Limit
	Names   map[string]map[string]bool
	Rows    map[Entity][]Row // of those that were asked for
	Whole   bool             // they are those of all entities, listed or not
}

// Entity is a name of a list.
type Entity struct{ List, Name string }

// Row is the values of an attribute.
type Row struct {
	Attribute string
	Type      string `json:"datatype"`
	Issuer    *string
	Module    int
	Values    Values
}

// Values are those of a row, as their texts.
type Values []string

// UnmarshalJSON reads texts, numbers and truths.
func (v *Values) UnmarshalJSON(written []byte) error {
	var all []json.RawMessage
	if err := json.Unmarshal(written, &all); err != nil {
		return err
	}
	for _, one := range all {
		text := string(one)
		if one[0] == '"' {
			if err := json.Unmarshal(one, &text); err != nil {
				return err
			}
		}
		*v = append(*v, text)
	}
	return nil
}

// State asks what stands of lists, without rows.
func (f *Front) State(ctx context.Context) (*State, error) {
	replies, err := f.ask(ctx, [][]byte{
		[]byte(`{"do":"state"}`), []byte(`{"do":"limits"}`), []byte(`{"do":"counts"}`),
		[]byte(`{"do":"names","list":"people"}`), []byte(`{"do":"names","list":"actions"}`),
		[]byte(`{"do":"names","list":"resources"}`),
	})
	if err != nil {
		return nil, err
	}
	var told struct {
		State  struct{ Serial *uint64 }
		Limits map[string]Limit
		Counts struct{ Permit uint64 }
	}
	for _, reply := range replies[:3] {
		if err := json.Unmarshal(reply, &told); err != nil {
			return nil, fmt.Errorf("what stands can't be read: %w", err)
		}
	}
	if told.State.Serial == nil || told.Limits == nil {
		return nil, fmt.Errorf("what stands can't be read: %.200s", replies[0])
	}
	state := &State{
		Serial: *told.State.Serial, Permits: told.Counts.Permit, Limits: told.Limits,
		Names: map[string]map[string]bool{}, Rows: map[Entity][]Row{},
	}
	for i, list := range []string{"people", "actions", "resources"} {
		var named struct{ Names []string }
		if err := json.Unmarshal(replies[3+i], &named); err != nil {
			return nil, fmt.Errorf("names can't be read: %w", err)
		}
		state.Names[list] = make(map[string]bool, len(named.Names))
		for _, name := range named.Names {
			state.Names[list][name] = true
		}
	}
	return state, nil
}

// few is how many entities are asked for one by one, each of which takes the program as long as all rows do.
const few = 20

// ReadRows asks for the rows of entities, and puts them into the state: of many by a dump, if it may be had.
func (f *Front) ReadRows(ctx context.Context, state *State, entities []Entity) error {
	if len(entities) <= few || f.undumped {
		return f.readEach(ctx, state, entities)
	}
	err := f.readAll(ctx, state)
	var told *Problem
	if errors.As(err, &told) && told.Status == http.StatusForbidden {
		f.undumped = true
		return f.readEach(ctx, state, entities)
	}
	return err
}

// readEach asks for the rows of each.
func (f *Front) readEach(ctx context.Context, state *State, entities []Entity) error {
	ctx, stop := context.WithCancel(ctx)
	defer stop()
	parts := make(chan []Entity)
	failed := make(chan error, readers)
	var mutex sync.Mutex
	for i := 0; i < readers; i++ {
		go func() {
			var err error
			for part := range parts {
				if err == nil {
					err = f.readPart(ctx, state, part, &mutex)
				}
				if err != nil {
					stop()
				}
			}
			failed <- err
		}()
	}
	bytes, from := 0, 0
	for i, entity := range entities {
		if bytes += 100 + 6*len(entity.Name); bytes > bodyBytes {
			parts <- entities[from:i]
			bytes, from = 100+6*len(entity.Name), i
		}
	}
	if from < len(entities) {
		parts <- entities[from:]
	}
	close(parts)
	var first error
	for i := 0; i < readers; i++ {
		if err := <-failed; err != nil && (first == nil || first == context.Canceled) {
			first = err
		}
	}
	return first
}

// readPart asks for the rows of some.
func (f *Front) readPart(ctx context.Context, state *State, part []Entity, mutex *sync.Mutex) error {
	lines := make([][]byte, len(part))
	for i, entity := range part {
		line, err := json.Marshal(struct {
			Do       string `json:"do"`
			Category string `json:"category"`
			Entity   string `json:"entity"`
		}{"attributes", Categories[entity.List], entity.Name})
		if err != nil {
			return err
		}
		lines[i] = line
	}
	replies, err := f.ask(ctx, lines)
	if err != nil {
		return err
	}
	rows := make([][]Row, len(part))
	for i, reply := range replies {
		var told struct{ Attributes []Row }
		if err := json.Unmarshal(reply, &told); err != nil {
			return fmt.Errorf("rows can't be read: %w", err)
		}
		rows[i] = told.Attributes
	}
	mutex.Lock()
	defer mutex.Unlock()
	for i, entity := range part {
		state.Rows[entity] = rows[i]
	}
	return nil
}
