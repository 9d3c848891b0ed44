package web

import (
	"context"
	"encoding/json"
	"sync"

	"review-front/authzen"
	"review-front/folder"
	"review-front/line"
)

// listing is which names are listed. It is read once, when somebody searches, and then changed by edits.
type listing struct {
	reading sync.Mutex // held while it is read
	mutex   sync.Mutex
	wanted  bool           // it is being read: edits are kept
	known   bool           // it was read
	edits   []folder.Entry // those that came while it was being read
	from    uint64         // the serial since which it is as it is
	names   map[authzen.Part][]string
}

// listings has the commands that list names, and those that drop them.
var listings = map[string]struct {
	part authzen.Part
	adds bool
}{
	"person.add": {authzen.Subject, true}, "person.drop": {authzen.Subject, false},
	"action.add": {authzen.Action, true}, "action.drop": {authzen.Action, false},
	"resource.add": {authzen.Resource, true}, "resource.drop": {authzen.Resource, false},
}

// Edited changes which names are listed, and what people are called, by edits that are on disk.
func (s *Server) Edited(edits []folder.Entry) {
	if s.Called != "" {
		s.calling.edited(s.Called, edits)
	}
	l := &s.listing
	l.mutex.Lock()
	defer l.mutex.Unlock()
	switch {
	case l.known:
		l.change(edits)
	case l.wanted:
		l.edits = append(l.edits, edits...)
	}
}

// change applies edits.
func (l *listing) change(edits []folder.Entry) {
	for _, edit := range edits {
		does, is := listings[line.Command(edit.Line)]
		var read struct{ Name string }
		if !is || edit.Serial <= l.from || json.Unmarshal(edit.Line, &read) != nil {
			continue
		}
		// Who searches still has the list of before.
		var names []string
		for _, name := range l.names[does.part] {
			if name != read.Name {
				names = append(names, name)
			}
		}
		if does.adds {
			names = append(names, read.Name)
		}
		l.names[does.part] = names
		l.from = edit.Serial
	}
}

// since says whether it is as it was at a serial since which it was so.
func (l *listing) since(from uint64) bool {
	l.mutex.Lock()
	defer l.mutex.Unlock()
	return l.from == from
}

// listed is the names that are listed for a part, and the serial since which they are.
func (s *Server) listed(ctx context.Context, part authzen.Part) ([]string, uint64, *problem) {
	l := &s.listing
	l.reading.Lock()
	defer l.reading.Unlock()
	l.mutex.Lock()
	known := l.known
	l.wanted = true
	l.mutex.Unlock()
	if !known {
		var read struct{ Dump []string }
		serial, told := s.reported(ctx, []byte(`{"do":"dump"}`), &read)
		if told != nil {
			l.forget()
			return nil, 0, told
		}
		l.read(read.Dump, serial)
	}
	l.mutex.Lock()
	defer l.mutex.Unlock()
	return l.names[part], l.from, nil
}

// forget keeps no more edits: it couldn't be read.
func (l *listing) forget() {
	l.mutex.Lock()
	defer l.mutex.Unlock()
	l.wanted, l.edits = false, nil
}

// read takes the names of the lines of a dump of a state, and changes them by what was edited since.
func (l *listing) read(dump []string, serial uint64) {
	l.mutex.Lock()
	defer l.mutex.Unlock()
	l.names, l.from = map[authzen.Part][]string{}, 0
	for _, written := range dump {
		does, is := listings[line.Command([]byte(written))]
		var one struct{ Name string }
		if is && json.Unmarshal([]byte(written), &one) == nil {
			l.names[does.part] = append(l.names[does.part], one.Name)
		}
	}
	l.from = serial
	l.change(l.edits)
	l.edits, l.known = nil, true
}
