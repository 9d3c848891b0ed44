// Package review asks a front of `review` for decisions, and denies where there is no answer.
package review

import (
	"bytes"
	"context"
	"encoding/json"
	"fmt"
	"io"
	"net/http"
	"strconv"
	"strings"
	"sync/atomic"
	"time"
)

const (
	// NoAnswer is the decision where there is none.
	NoAnswer  = "NoAnswer"
	pause     = 50 * time.Millisecond // before it is asked once more
	mostBytes = 64 << 20              // of an answer, and of what is told at once
)

// Options is how a client asks.
type Options struct {
	Token     string            // by which the front knows it; may be empty
	Timeout   time.Duration     // how long each of two tries may take; 0: two seconds
	Cache     int               // how many answers of listed requests of three ids are kept; 0: none
	Transport http.RoundTripper // nil: http.DefaultTransport
}

// Question is whether a person may do an action to a resource.
type Question struct {
	Person, Action, Resource string
	More                     []Attribute // which are given besides
	AtLeast                  uint64      // a serial that has to be known
}

// Attribute is one that a question gives, or that an obligation or an advice assigns.
type Attribute struct {
	Category         string `json:",omitempty"` // as AccessSubject, Action, Resource, Environment, or a URI
	ID               string `json:"AttributeId"`
	DataType, Issuer string `json:",omitempty"` // may be empty
	Value            any    // a text, a boolean or a number, or several of one kind
}

// Duty is an obligation or an advice.
type Duty struct {
	ID          string      `json:"Id"`
	Assignments []Attribute `json:"AttributeAssignment"`
}

// Decision is what was decided: Permit, Deny, NotApplicable, Indeterminate or NoAnswer.
type Decision struct {
	Decision            string
	Obligations, Advice []Duty
	Status              string
	Serial              uint64
	Err                 error // why there is no answer
}

// Allowed says whether access is to be given: for a Permit each of whose obligations is fulfilled. Those of another
// decision are handed over too. Without `fulfil` an obligation refuses.
func (d Decision) Allowed(fulfil func(Duty) error) bool {
	done := true
	for _, one := range d.Obligations {
		done = fulfil != nil && fulfil(one) == nil && done
	}
	return done && d.Decision == "Permit"
}

// Client asks one front. Any number of goroutines may use it.
type Client struct {
	options Options
	base    string
	web     http.Client
	sent    atomic.Uint64 // how often it asked
	end     context.CancelFunc
	table   table
}

// New makes a client of the front at an address. With a cache it listens until it is closed.
func New(base string, options Options) (*Client, error) {
	if _, err := http.NewRequest(http.MethodGet, base, nil); err != nil || !strings.HasPrefix(base, "http") {
		return nil, fmt.Errorf("%q is no address of a front", base)
	}
	if options.Timeout == 0 {
		options.Timeout = 2 * time.Second
	}
	ctx, end := context.WithCancel(context.Background())
	c := &Client{options: options, base: strings.TrimSuffix(base, "/"), end: end}
	c.web.Transport = options.Transport
	c.web.CheckRedirect = func(*http.Request, []*http.Request) error { return http.ErrUseLastResponse }
	if options.Cache > 0 {
		go c.listen(ctx)
	}
	return c, nil
}

// Close ends the listening to what changes.
func (c *Client) Close() { c.end() }

// Ask asks a question. One of three ids is asked of the table while that tells what changes.
func (c *Client) Ask(ctx context.Context, q Question) Decision {
	if len(q.More) == 0 {
		if found, listed := c.askTable(ctx, key{q.Person, q.Action, q.Resource}, q.AtLeast); listed {
			return found
		}
	}
	const ids = "urn:oasis:names:tc:xacml:1.0:"
	given := map[string][]Attribute{
		"AccessSubject": {{ID: ids + "subject:subject-id", Value: q.Person}},
		"Action":        {{ID: ids + "action:action-id", Value: q.Action}},
		"Resource":      {{ID: ids + "resource:resource-id", Value: q.Resource}},
	}
	for _, one := range q.More {
		given[one.Category] = append(given[one.Category], Attribute{"", one.ID, one.DataType, one.Issuer, one.Value})
	}
	var all []any
	for category, attributes := range given {
		all = append(all, map[string]any{"CategoryId": category, "Attribute": attributes})
	}
	return c.Decide(ctx, map[string]any{"Request": map[string]any{"Category": all}}, q.AtLeast)
}

// Decide asks any request of one question, as the JSON Profile of XACML has it, of at least a serial.
func (c *Client) Decide(ctx context.Context, request any, atLeast uint64) Decision {
	var read struct {
		Response []struct {
			Decision                      string
			Status                        struct{ StatusCode struct{ Value string } }
			Obligations, AssociatedAdvice []Duty
		}
	}
	body, err := json.Marshal(request)
	if err != nil {
		return Decision{Decision: NoAnswer, Err: err}
	}
	serial, err := c.send(ctx, http.MethodPost, "/authorize", body, atLeast, &read)
	if err == nil && len(read.Response) != 1 {
		err = fmt.Errorf("the response has %d results", len(read.Response))
	}
	if err != nil {
		return Decision{Decision: NoAnswer, Err: err}
	}
	one := read.Response[0]
	return made(one.Decision, one.Obligations, one.AssociatedAdvice, one.Status.StatusCode.Value, serial)
}

// made is a decision of what was answered. An Indeterminate of the table says more behind a brace.
func made(decision string, obligations, advice []Duty, status string, serial uint64) Decision {
	word, _, _ := strings.Cut(decision, "{")
	switch word {
	case "Permit", "Deny", "NotApplicable", "Indeterminate":
		return Decision{word, obligations, advice, status[strings.LastIndex(status, ":")+1:], serial, nil}
	}
	return Decision{Decision: NoAnswer, Err: fmt.Errorf("the decision %q is none", decision)}
}

// Guard passes a request on where what it asks is allowed. Of who asks nothing (false), or isn't allowed, it answers
// 403, and 503 where there is no answer. Without `fulfil` an obligation refuses.
func (c *Client) Guard(
	next http.Handler, ask func(*http.Request) (Question, bool), fulfil func(*http.Request, Duty) error,
) http.Handler {
	return http.HandlerFunc(func(w http.ResponseWriter, r *http.Request) {
		found := Decision{}
		if q, known := ask(r); known {
			found = c.Ask(r.Context(), q)
		}
		done := func(one Duty) error { return fulfil(r, one) }
		if fulfil == nil {
			done = nil
		}
		switch {
		case found.Allowed(done):
			next.ServeHTTP(w, r)
		case found.Decision == NoAnswer:
			http.Error(w, "no answer", http.StatusServiceUnavailable)
		default:
			http.Error(w, "not allowed", http.StatusForbidden)
		}
	})
}

// send asks at most twice, and reads the JSON of an answer of 200, of which it gives the serial.
func (c *Client) send(ctx context.Context, method, path string, body []byte, atLeast uint64, into any) (uint64, error) {
	serial, again, err := c.sendOnce(ctx, method, path, body, atLeast, into)
	if again && ctx.Err() == nil {
		time.Sleep(pause)
		serial, _, err = c.sendOnce(ctx, method, path, body, atLeast, into)
	}
	return serial, err
}

// sendOnce asks once. It is to be asked again where nothing came that can be read, or there was no reply of the
// program.
func (c *Client) sendOnce(
	ctx context.Context, method, path string, body []byte, atLeast uint64, into any,
) (serial uint64, again bool, err error) {
	c.sent.Add(1)
	ctx, cancel := context.WithTimeout(ctx, c.options.Timeout)
	defer cancel()
	answer, err := c.open(ctx, method, path, body, atLeast)
	if err != nil {
		return 0, true, err
	}
	defer answer.Body.Close()
	content, err := io.ReadAll(io.LimitReader(answer.Body, mostBytes))
	if status := answer.StatusCode; err == nil && status != http.StatusOK {
		return 0, 502 <= status && status <= 504, fmt.Errorf("status %d: %s", status, bytes.TrimSpace(content))
	}
	if err == nil {
		err = json.Unmarshal(content, into)
	}
	if err == nil {
		serial, err = strconv.ParseUint(answer.Header.Get("Review-Serial"), 10, 64)
	}
	return serial, err != nil, err
}

// open asks a path of the front, and gives what it answers before that is read.
func (c *Client) open(ctx context.Context, method, path string, body []byte, atLeast uint64) (*http.Response, error) {
	asked, err := http.NewRequestWithContext(ctx, method, c.base+path, bytes.NewReader(body))
	if err != nil {
		return nil, err
	}
	asked.Header.Set("Content-Type", "application/json")
	if c.options.Token != "" {
		asked.Header.Set("Authorization", "Bearer "+c.options.Token)
	}
	if atLeast > 0 {
		asked.Header.Set("Review-At-Least", strconv.FormatUint(atLeast, 10))
	}
	return c.web.Do(asked)
}
