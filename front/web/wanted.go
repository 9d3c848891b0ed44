package web

import (
	"bufio"
	"encoding/json"
	"errors"
	"fmt"
	"io"
	"net/url"
	"strings"
	"unicode/utf8"
)

// names are names that a listener wants to hear of; none of them: all.
type names []string

// have says whether a name is wanted: it is one of these, or begins as one that ends in an asterisk.
func (n names) have(name string) bool {
	for _, one := range n {
		if one == name || strings.HasSuffix(one, "*") && strings.HasPrefix(name, one[:len(one)-1]) {
			return true
		}
	}
	return len(n) == 0
}

// wanted is of whom and what a listener wants to hear.
type wanted struct {
	persons, actions, resources names
}

// wantedOf reads it in a query; nil is all.
func wantedOf(query string) (*wanted, error) {
	given, err := url.ParseQuery(strings.ReplaceAll(query, ";", "%3B"))
	if err != nil {
		return nil, errors.New("the query can't be read")
	}
	if len(given) == 0 {
		return nil, nil
	}
	hears := &wanted{}
	keys := map[string]*names{"persons": &hears.persons, "actions": &hears.actions, "resources": &hears.resources}
	for key, values := range given {
		to, known := keys[key]
		if !known {
			return nil, fmt.Errorf("the query has the key %q, which isn't known here", key)
		}
		for _, value := range values {
			if !utf8.ValidString(value) {
				return nil, fmt.Errorf("what stands at %s isn't UTF-8", key)
			}
		}
		*to = values
	}
	return hears, nil
}

// of says whether a notice is wanted.
func (w *wanted) of(notice json.RawMessage) (bool, error) {
	var named struct{ Person, Action, Resource string }
	if err := json.Unmarshal(notice, &named); err != nil {
		return false, err
	}
	return w.persons.have(named.Person) && w.actions.have(named.Action) && w.resources.have(named.Resource), nil
}

// send sends an event with those of some notices that are wanted, each as the program wrote it. Where none is, it tells
// only up to which serial all is told.
func (w *wanted) send(to io.Writer, serial string, told io.Reader) error {
	notices := json.NewDecoder(told)
	for i := 0; i < 3; i++ { // the object, its key, and the list
		if _, err := notices.Token(); err != nil {
			return err
		}
	}
	out := bufio.NewWriter(to)
	before := "event: notices\nid: " + serial + "\ndata: {\"notices\":["
	any := false
	for notices.More() {
		var notice json.RawMessage
		if err := notices.Decode(&notice); err != nil {
			return err
		}
		if hears, err := w.of(notice); err != nil {
			return err
		} else if !hears {
			continue
		}
		out.WriteString(before)
		out.Write(notice)
		before, any = ",", true
	}
	if any {
		out.WriteString("]}\n\n")
	} else {
		out.WriteString("id: " + serial + "\n\n")
	}
	return out.Flush()
}
