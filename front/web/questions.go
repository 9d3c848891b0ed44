package web

import (
	"encoding/json"
	"fmt"
	"net/http"
	"net/url"
	"strconv"
	"strings"
	"unicode/utf8"

	"review-front/keeper"
	"review-front/line"
)

// kind is what a key of a question holds.
type kind int

const (
	aText     kind = iota // a text, which has to be there
	textOrNot             // a text, or the key is left out
	textOrNul             // a text, or null
	aWhole                // a whole number, which has to be there
	wholeOrNo             // a whole number, or the key is left out
	textList              // texts, or the key is left out
	flagOrNo              // true or false, or the key is left out
)

// key is a key of a question: in the path, or else in the query.
type key struct {
	name string
	kind kind
}

// question is a path that asks one command.
type question struct {
	path string
	do   string
	keys []key
}

// questions has a path for each question of the program, also for those that only some of its versions have.
var questions = []question{
	{"/table", "table", nil},
	{"/counts", "counts", nil},
	{"/cells/{person}/{action}/{resource}", "cell", []key{{"person", aText}, {"action", aText}, {"resource", aText}}},
	{"/can/{person}", "can", []key{{"person", aText}}},
	{"/who", "who", []key{{"action", aText}, {"resource", aText}}},
	{"/by_rule", "by_rule", []key{{"policy", aText}, {"rule", textOrNul}}},
	{"/work", "work", nil},
	{"/dump", "dump", []key{{"version", wholeOrNo}}},
	{"/format", "format", []key{{"version", wholeOrNo}}},
	{"/state", "state", nil},
	{"/limits", "limits", nil},
	{"/names", "names", []key{{"list", aText}, {"from", wholeOrNo}, {"count", wholeOrNo}}},
	{"/documents", "documents", []key{{"id", textOrNot}}},
	{"/attributes", "attributes", []key{{"category", aText}, {"entity", aText}}},
	{"/cells", "cells", []key{
		{"person", textOrNot}, {"action", textOrNot}, {"resource", textOrNot}, {"decisions", textList},
	}},
	{"/changes", "changes", []key{{"since", aWhole}}},
	{"/faults", "faults", nil},
	{"/explain/{person}/{action}/{resource}", "explain", []key{
		{"person", aText}, {"action", aText}, {"resource", aText}, {"documents", flagOrNo},
	}},
}

// asking answers a path by the line of its question.
func (s *Server) asking(q question) func(*answered, *http.Request, map[string]string) {
	return func(w *answered, r *http.Request, inPath map[string]string) {
		l, err := q.line(inPath, withoutAt(r.URL.RawQuery))
		if err != nil {
			bad(err.Error()).send(w)
			return
		}
		if _, then := r.URL.Query()[atKey]; then {
			s.past(w, r, q, l)
			return
		}
		if !s.mayAll(w, r, l) {
			return
		}
		s.relay(w, r, q.do, l)
	}
}

// relay asks a line and answers with its reply.
func (s *Server) relay(w *answered, r *http.Request, do string, l []byte) {
	if len(l) > line.Limit {
		refuse(w, []byte(line.TooLong))
		return
	}
	if !s.stands(w, r) {
		return
	}
	reply := s.Keeper.Report(r.Context(), l)
	if s.namesModules(do) {
		reply = s.withModules(r, do, reply, func(l []byte) keeper.Reply { return s.Keeper.Report(r.Context(), l) })
	}
	sendReply(w, reply)
}

// sendReply answers with a reply of the program, or with why it has none or refuses.
func sendReply(w http.ResponseWriter, reply keeper.Reply) {
	if reply.Err != nil {
		problemFor(reply.Err).send(w)
		return
	}
	tellSerial(w, reply.Serial)
	if refuse(w, reply.Body) {
		return
	}
	w.Header().Set("Content-Type", "application/json")
	digestedReply(w, reply)
	// Who has gone isn't told.
	_, _ = reply.WriteTo(w)
}

// refuse answers with a problem where a reply is a refusal.
func refuse(w http.ResponseWriter, reply []byte) bool {
	told, ok := problemOf(reply)
	if ok {
		told.send(w)
	}
	return ok
}

// line is the line of a question.
func (q question) line(inPath map[string]string, query string) ([]byte, error) {
	// The library would refuse `;`, which separates nothing.
	given, err := url.ParseQuery(strings.ReplaceAll(query, ";", "%3B"))
	if err != nil {
		return nil, fmt.Errorf("the query can't be read")
	}
	l := []byte(`{"do":` + quoted(q.do))
	for _, key := range q.keys {
		values, there := given[key.name]
		delete(given, key.name)
		if value, has := inPath[key.name]; has {
			values, there = []string{value}, true
		}
		written, err := key.write(values, there)
		if err != nil {
			return nil, err
		}
		if written != "" {
			l = append(l, `,"`+key.name+`":`+written...)
		}
	}
	for name := range given {
		return nil, fmt.Errorf("the query has the key %q, which isn't known here", name)
	}
	return append(l, '}'), nil
}

// write is what stands at a key in the line, or nothing where it is left out.
func (k key) write(values []string, there bool) (string, error) {
	for _, value := range values {
		if !utf8.ValidString(value) {
			return "", fmt.Errorf("what stands at %s isn't UTF-8", k.name)
		}
	}
	if len(values) > 1 && k.kind != textList {
		return "", fmt.Errorf("%s stands more than once", k.name)
	}
	switch {
	case !there && (k.kind == aText || k.kind == aWhole):
		return "", fmt.Errorf("the query lacks %s", k.name)
	case !there && k.kind == textOrNul:
		return "null", nil
	case !there:
		return "", nil
	case k.kind == textList:
		written, err := json.Marshal(values)
		return string(written), err
	case k.kind == wholeOrNo || k.kind == aWhole:
		number, err := strconv.ParseInt(values[0], 10, 64)
		if err != nil {
			return "", fmt.Errorf("%s is no whole number", k.name)
		}
		return strconv.FormatInt(number, 10), nil
	case k.kind == flagOrNo && values[0] != "true" && values[0] != "false":
		return "", fmt.Errorf("%s is neither true nor false", k.name)
	case k.kind == flagOrNo:
		return values[0], nil
	}
	return quoted(values[0]), nil
}

// quoted is a text as JSON.
func quoted(text string) string {
	written, err := json.Marshal(text)
	if err != nil {
		return `""`
	}
	return string(written)
}
