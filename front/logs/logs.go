// Package logs writes what happens as lines of JSON.
package logs

import (
	"encoding/json"
	"fmt"
	"io"
	"log"
	"strings"
	"sync"
	"time"
)

// Log writes one JSON object a line. Its zero value writes nothing.
type Log struct {
	mutex sync.Mutex
	to    io.Writer
}

// New makes a log that writes to a writer.
func New(to io.Writer) *Log {
	return &Log{to: to}
}

// Info tells of something that is as it should be. What follows the message are names and values, by turns.
func (l *Log) Info(message string, pairs ...any) { l.write("info", message, pairs) }

// Error tells of something that somebody has to look at.
func (l *Log) Error(message string, pairs ...any) { l.write("error", message, pairs) }

func (l *Log) write(level, message string, pairs []any) {
	if l == nil || l.to == nil {
		return
	}
	line := []byte(`{"time":`)
	line = append(line, text(time.Now().UTC().Format(time.RFC3339Nano))...)
	line = append(line, `,"level":"`+level+`","message":`...)
	line = append(line, text(message)...)
	for i := 0; i+1 < len(pairs); i += 2 {
		line = append(line, ',')
		line = append(line, text(fmt.Sprint(pairs[i]))...)
		line = append(line, ':')
		line = append(line, value(pairs[i+1])...)
	}
	line = append(line, "}\n"...)
	l.mutex.Lock()
	defer l.mutex.Unlock()
	// A log that can't be written has nowhere to say so.
	_, _ = l.to.Write(line)
}

// value is a value as JSON: errors, durations and what JSON doesn't know by their words.
func value(v any) []byte {
	switch v := v.(type) {
	case error:
		return text(v.Error())
	case fmt.Stringer:
		return text(v.String())
	}
	written, err := json.Marshal(v)
	if err != nil {
		return text(fmt.Sprint(v))
	}
	return written
}

func text(s string) []byte {
	written, err := json.Marshal(s)
	if err != nil {
		return []byte(`""`)
	}
	return written
}

// Standard is a log of the standard library whose lines become errors of this one.
func (l *Log) Standard() *log.Logger { return log.New(lines{l}, "", 0) }

// Lines takes what somebody else says, and logs it as errors.
func (l *Log) Lines() io.Writer { return lines{l} }

type lines struct{ log *Log }

// Write takes a line, or some.
func (l lines) Write(line []byte) (int, error) {
	l.log.Error(strings.TrimSpace(string(line)))
	return len(line), nil
}
