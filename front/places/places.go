// Package places reads JSON whose values know their place, so that whoever sent it is told what is wrong, and where.
package places

import (
	"bytes"
	"encoding/json"
	"fmt"
	"io"
	"sort"
	"strconv"
	"strings"
)

const (
	// MostOf is how many members a list has at most.
	MostOf = 256
	// NameBytes is how long a name is at most.
	NameBytes = 256
)

// Fault says what is wrong, and where.
type Fault struct {
	Place string // a JSON pointer, which of the whole is empty; of XML the path of an element
	What  string
}

func (f *Fault) Error() string {
	if f.Place == "" {
		return f.What
	}
	return fmt.Sprintf("%s: %s", f.Place, f.What)
}

// Node is a value of JSON and its place, a JSON pointer.
type Node struct {
	Value any // as encoding/json has it, with numbers as they are written
	Place string
}

// Child is what stands at a key, with its own place; false where the key is absent.
func (n Node) Child(key string) (Node, bool) {
	value, there := n.Value.(map[string]any)[key]
	escaped := strings.NewReplacer("~", "~0", "/", "~1").Replace(key)
	return Node{value, n.Place + "/" + escaped}, there
}

// Fault says what is wrong with it.
func (n Node) Fault(what string, pairs ...any) error {
	return &Fault{n.Place, fmt.Sprintf(what, pairs...)}
}

// Only sees that this is an object with no other keys than these.
func (n Node) Only(keys ...string) error {
	object, ok := n.Value.(map[string]any)
	if !ok {
		return n.Fault("it isn't an object")
	}
	var foreign []string
	for key := range object {
		foreign = append(foreign, key)
	}
	sort.Strings(foreign)
	for _, key := range foreign {
		if !among(keys, key) {
			there, _ := n.Child(key)
			return there.Fault("the key %s isn't known here", key)
		}
	}
	return nil
}

func among(keys []string, key string) bool {
	for _, one := range keys {
		if one == key {
			return true
		}
	}
	return false
}

// Needed is what stands at a key that has to be there.
func (n Node) Needed(key string) (Node, error) {
	there, ok := n.Child(key)
	if !ok {
		return Node{}, n.Fault("%s is missing", key)
	}
	return there, nil
}

// Text is the text at a key that may be absent.
func (n Node) Text(key string) (string, bool, error) {
	there, ok := n.Child(key)
	if !ok {
		return "", false, nil
	}
	text, ok := there.Value.(string)
	if !ok {
		return "", false, there.Fault("it isn't a text")
	}
	return text, true, nil
}

// Name is the text of 1 to 256 bytes at a key that may be absent.
func (n Node) Name(key string) (string, bool, error) {
	text, there, err := n.Text(key)
	if err == nil && there && (text == "" || len(text) > NameBytes) {
		at, _ := n.Child(key)
		return "", false, at.Fault("it has 1 to %d bytes", NameBytes)
	}
	return text, there, err
}

// NeededName is the text of 1 to 256 bytes at a key that has to be there.
func (n Node) NeededName(key string) (string, error) {
	name, there, err := n.Name(key)
	if err == nil && !there {
		return "", n.Fault("%s is missing", key)
	}
	return name, err
}

// Flag is the boolean at a key, false where it is absent.
func (n Node) Flag(key string) (bool, error) {
	there, ok := n.Child(key)
	if !ok {
		return false, nil
	}
	flag, ok := there.Value.(bool)
	if !ok {
		return false, there.Fault("it isn't true or false")
	}
	return flag, nil
}

// Many are the members of a list, or the one value that stands in its place; none where it is absent.
func (n Node) Many(key string) ([]Node, error) {
	there, ok := n.Child(key)
	if !ok {
		return nil, nil
	}
	return there.Members()
}

// Members are the members of a list, or the one value that stands in its place.
func (n Node) Members() ([]Node, error) {
	list, ok := n.Value.([]any)
	if !ok {
		return []Node{n}, nil
	}
	if len(list) > MostOf {
		return nil, n.Fault("a list has at most %d members", MostOf)
	}
	var members []Node
	for at, value := range list {
		members = append(members, Node{value, n.Place + "/" + strconv.Itoa(at)})
	}
	return members, nil
}

// Parse is the one value of JSON that some bytes are.
func Parse(body []byte) (Node, error) {
	decoder := json.NewDecoder(bytes.NewReader(body))
	decoder.UseNumber()
	var value any
	if err := decoder.Decode(&value); err != nil {
		return Node{}, &Fault{What: "it isn't JSON"}
	}
	if _, err := decoder.Token(); err != io.EOF {
		return Node{}, &Fault{What: "something follows the JSON"}
	}
	return Node{Value: value}, nil
}
