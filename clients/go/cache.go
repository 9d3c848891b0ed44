package review

import (
	"bufio"
	"context"
	"encoding/json"
	"net/http"
	"net/url"
	"strconv"
	"strings"
	"sync"
	"time"
)

// silence is after how long without a word of /notices none is kept.
const silence = 40 * time.Second

// key is a request of three ids.
type key struct{ Person, Action, Resource string }

// table has answers of listed requests. One is kept if it is of a state at least as new as what was told last: what
// changes it later is told later.
type table struct {
	sync.Mutex
	answers map[key]Decision // nil while nobody tells what changes
	told    uint64           // up to which serial changes were told
}

// askTable asks the table, unless its answer is kept. It is false where nobody tells what changes there, where the
// request isn't listed, and where who asks may not read it.
func (c *Client) askTable(ctx context.Context, k key, atLeast uint64) (Decision, bool) {
	c.table.Lock()
	found, kept := c.table.answers[k]
	kept, told := kept && atLeast <= c.table.told, c.table.answers != nil
	c.table.Unlock()
	if kept || !told {
		return found, kept
	}
	var read struct {
		Cell struct {
			key
			Decision, Status    string
			Obligations, Advice []Duty
		}
	}
	path := "/cells/" + url.PathEscape(k.Person) + "/" + url.PathEscape(k.Action) + "/" + url.PathEscape(k.Resource)
	serial, err := c.send(ctx, http.MethodGet, path, nil, atLeast, &read)
	cell := read.Cell
	if err != nil || cell.key != k {
		return Decision{}, false
	}
	found = made(cell.Decision, cell.Obligations, cell.Advice, cell.Status, serial)
	c.table.keep(k, found, c.options.Cache)
	return found, true
}

// keep keeps an answer, for which others make room.
func (t *table) keep(k key, found Decision, most int) {
	t.Lock()
	defer t.Unlock()
	if t.answers == nil || found.Serial < t.told || found.Decision == NoAnswer {
		return
	}
	delete(t.answers, k)
	for other := range t.answers {
		if len(t.answers) < most {
			break
		}
		delete(t.answers, other)
	}
	t.answers[k] = found
}

// listen hears what changes, and begins anew a second after that ended.
func (c *Client) listen(ctx context.Context) {
	for ; ctx.Err() == nil; time.Sleep(time.Second) {
		c.hear(ctx)
		c.table.Lock()
		c.table.answers = nil
		c.table.Unlock()
	}
}

// hear hears what changes, until that ends or nothing is said for too long.
func (c *Client) hear(ctx context.Context) {
	ctx, cancel := context.WithCancel(ctx)
	defer cancel()
	silent := time.AfterFunc(silence, cancel)
	defer silent.Stop()
	answer, err := c.open(ctx, http.MethodGet, "/notices", nil, 0)
	if err != nil {
		return
	}
	defer answer.Body.Close()
	lines := bufio.NewScanner(answer.Body)
	lines.Buffer(nil, mostBytes)
	for serial := uint64(0); answer.StatusCode == http.StatusOK && err == nil && lines.Scan(); silent.Reset(silence) {
		switch word, rest, _ := strings.Cut(lines.Text(), ":"); word {
		case "id":
			serial, err = strconv.ParseUint(strings.TrimSpace(rest), 10, 64)
		case "data":
			err = c.table.tell([]byte(rest), serial)
		case "", "event":
		default:
			return // it says why it ends
		}
	}
}

// tell forgets what changed up to a serial: all, where it isn't told what.
func (t *table) tell(data []byte, serial uint64) error {
	var read struct{ Notices []key }
	if err := json.Unmarshal(data, &read); err != nil {
		return err
	}
	t.Lock()
	defer t.Unlock()
	t.told = serial
	if read.Notices == nil {
		t.answers = map[key]Decision{}
	}
	for _, k := range read.Notices {
		delete(t.answers, k)
	}
	return nil
}
