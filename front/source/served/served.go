// Package served asks a front, and sends it edits.
package served

import (
	"bytes"
	"context"
	"crypto/tls"
	"crypto/x509"
	"encoding/json"
	"errors"
	"fmt"
	"io"
	"net"
	"net/http"
	"os"
	"strconv"
	"strings"
	"time"
)

// Front is a front, as one source asks it.
type Front struct {
	address  string
	token    string
	field    string // the field of a head that says who asks, if it isn't empty
	name     string
	client   *http.Client
	patience time.Duration
	undumped bool // who asks may have no dump
}

// Options says how a front is asked.
type Options struct {
	Address, Authority      string
	Token, Certificate, Key string // files; each may be empty
	ByHeader, Name          string
	Patience, Timeout       time.Duration
}

// New is a front at an address, as http://host:8080 or unix: and the file of a socket.
func New(o Options) (*Front, error) {
	f := &Front{address: strings.TrimSuffix(o.Address, "/"), field: o.ByHeader, name: o.Name, patience: o.Patience}
	transport := &http.Transport{MaxIdleConnsPerHost: readers, IdleConnTimeout: time.Minute}
	if socket := strings.TrimPrefix(f.address, "unix:"); socket != f.address {
		f.address = "http://localhost"
		transport.DialContext = func(ctx context.Context, _, _ string) (net.Conn, error) {
			return (&net.Dialer{}).DialContext(ctx, "unix", socket)
		}
	}
	settings := &tls.Config{MinVersion: tls.VersionTLS12}
	if o.Authority != "" {
		written, err := os.ReadFile(o.Authority)
		if err != nil {
			return nil, err
		}
		settings.RootCAs = x509.NewCertPool()
		if !settings.RootCAs.AppendCertsFromPEM(written) {
			return nil, fmt.Errorf("%s has no certificate", o.Authority)
		}
	}
	if o.Certificate != "" {
		pair, err := tls.LoadX509KeyPair(o.Certificate, o.Key)
		if err != nil {
			return nil, err
		}
		settings.Certificates = []tls.Certificate{pair}
	}
	if o.Token != "" {
		written, err := os.ReadFile(o.Token)
		if err != nil {
			return nil, err
		}
		f.token = strings.TrimSpace(string(written))
	}
	transport.TLSClientConfig = settings
	f.client = &http.Client{Transport: transport, Timeout: o.Timeout}
	return f, nil
}

// Close lets connections go.
func (f *Front) Close() { f.client.CloseIdleConnections() }

// Problem is an answer that something is wrong.
type Problem struct {
	Title   string `json:"title"`
	Status  int    `json:"status"`
	Detail  string `json:"detail"`
	Refused int    `json:"refused"`
}

func (p *Problem) Error() string {
	if p.Detail == "" {
		return fmt.Sprintf("the front answers %d: %s", p.Status, p.Title)
	}
	return fmt.Sprintf("the front answers %d: %s: %s", p.Status, p.Title, p.Detail)
}

// EditedBetween says whether somebody else edited since the serial that a body named.
func EditedBetween(err error) bool {
	var told *Problem
	return errors.As(err, &told) && told.Status == http.StatusPreconditionFailed
}

// answer is what a request is answered.
type answer struct {
	body   []byte
	serial uint64
}

// post sends a body until there is an answer that isn't 503, as long as patience lasts. Only what may be sent again is
// sent so: what asks, and what has a key.
func (f *Front) post(ctx context.Context, path string, body []byte, fields map[string]string) (answer, error) {
	until := time.Now().Add(f.patience)
	for pause := 100 * time.Millisecond; ; pause *= 2 {
		got, again, err := f.once(ctx, path, body, fields)
		if err == nil || !again || ctx.Err() != nil || time.Now().After(until) {
			return got, err
		}
		if pause > 5*time.Second {
			pause = 5 * time.Second
		}
		select {
		case <-time.After(pause):
		case <-ctx.Done():
			return answer{}, ctx.Err()
		}
	}
}

// once sends a body, and says whether it may be sent again where that failed.
func (f *Front) once(ctx context.Context, path string, body []byte, fields map[string]string) (answer, bool, error) {
	request, err := http.NewRequestWithContext(ctx, http.MethodPost, f.address+path, bytes.NewReader(body))
	if err != nil {
		return answer{}, false, err
	}
	if f.token != "" {
		request.Header.Set("Authorization", "Bearer "+f.token)
	}
	if f.field != "" {
		request.Header.Set(f.field, f.name)
	}
	for name, value := range fields {
		request.Header.Set(name, value)
	}
	came, err := f.client.Do(request)
	if err != nil {
		return answer{}, true, fmt.Errorf("the front can't be asked: %w", err)
	}
	defer came.Body.Close()
	got, err := io.ReadAll(came.Body)
	if err != nil {
		return answer{}, true, fmt.Errorf("the front's answer broke off: %w", err)
	}
	if came.StatusCode != http.StatusOK {
		told := &Problem{}
		if json.Unmarshal(got, told) != nil || told.Status == 0 {
			told = &Problem{Title: http.StatusText(came.StatusCode), Status: came.StatusCode}
		}
		busy := told.Status == http.StatusServiceUnavailable || told.Status == http.StatusInsufficientStorage ||
			told.Status == http.StatusTooManyRequests
		return answer{}, busy, told
	}
	serial, _ := strconv.ParseUint(came.Header.Get("Review-Serial"), 10, 64)
	return answer{got, serial}, false, nil
}

// ask sends lines that ask, and gives a reply to each.
func (f *Front) ask(ctx context.Context, lines [][]byte) ([]json.RawMessage, error) {
	until := time.Now().Add(f.patience)
	for {
		got, err := f.post(ctx, "/lines", append(bytes.Join(lines, []byte("\n")), '\n'), nil)
		if err != nil {
			return nil, err
		}
		replies, busy, err := repliesIn(got.body, len(lines))
		if err == nil || !busy || time.Now().After(until) {
			return replies, err
		}
		select {
		case <-time.After(time.Second):
		case <-ctx.Done():
			return nil, ctx.Err()
		}
	}
}

// repliesIn reads replies, all of which have to be there, and says whether they may be there later.
func repliesIn(body []byte, count int) ([]json.RawMessage, bool, error) {
	var replies []json.RawMessage
	for _, line := range bytes.Split(bytes.TrimSuffix(body, []byte("\n")), []byte("\n")) {
		if bytes.HasPrefix(line, []byte(`{"refused":`)) {
			return nil, bytes.HasPrefix(line, []byte(`{"refused":15`)), fmt.Errorf("a question is answered %.200s", line)
		}
		told := &Problem{}
		if bytes.HasPrefix(line, []byte(`{"title":`)) && json.Unmarshal(line, told) == nil && told.Status != 0 {
			return nil, told.Status == http.StatusServiceUnavailable, told
		}
		replies = append(replies, json.RawMessage(line))
	}
	if len(replies) != count {
		return nil, true, fmt.Errorf("%d questions have %d replies", count, len(replies))
	}
	return replies, false, nil
}
