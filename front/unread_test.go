package main

import (
	"fmt"
	"net"
	"os"
	"regexp"
	"strconv"
	"strings"
	"sync/atomic"
	"testing"
	"time"
)

// most is how much memory a process had at most so far, in bytes.
func most(t *testing.T, process int) int {
	t.Helper()
	status, err := os.ReadFile(fmt.Sprintf("/proc/%d/status", process))
	if err != nil {
		t.Skip(err)
	}
	found := regexp.MustCompile(`VmHWM:\s+(\d+) kB`).FindSubmatch(status)
	if found == nil {
		t.Skip("the system doesn't tell how much memory a process had")
	}
	kilobytes, _ := strconv.Atoi(string(found[1]))
	return kilobytes << 10
}

// held is how much memory a reply takes at most that isn't read; under the race detector that is some times as much.
const held = 1 << 20

// TestListenersShare has listeners who read nothing while an edit changes the whole table: they wait for one text.
func TestListenersShare(t *testing.T) {
	f := begin(t, t.TempDir())
	f.accept(clinic(t)...)
	var names []string
	for i := 0; i < 150; i++ {
		names = append(names, fmt.Sprintf(`{"do":"person.add","name":"person-%d"}`, i))
	}
	f.accept(names...)
	const listeners = 100
	for i := 0; i < listeners; i++ {
		f.bare("/notices")
	}
	heard := f.listen()
	heard.next(t)
	eventually(t, "all listen", func() bool { return f.metric("review_front_listeners") == listeners+1 })
	before := most(t, f.process.Process.Pid)
	f.accept(`{"do":"action.add","name":"another"}`)
	length := len(heard.next(t).data)
	time.Sleep(time.Second) // until the others could have their copies
	grown := most(t, f.process.Process.Pid) - before
	t.Logf("%d listeners who read nothing of %d bytes take %d", listeners, length, grown)
	if grown > listeners*length*2/3 { // what the edit changed is written down meanwhile, too
		t.Error("each has a copy")
	}
}

// bare connects and asks a path, and reads nothing.
func (f *front) bare(path string) net.Conn {
	f.t.Helper()
	conn, err := net.Dial("tcp", f.address)
	if err != nil {
		f.t.Fatal(err)
	}
	f.t.Cleanup(func() { conn.Close() })
	if _, err := fmt.Fprintf(conn, "GET %s HTTP/1.1\r\nHost: localhost\r\n\r\n", path); err != nil {
		f.t.Fatal(err)
	}
	return conn
}

// wide makes a table of many cells.
func (f *front) wide() {
	f.t.Helper()
	names := clinic(f.t)
	for i := 0; i < 240; i++ {
		names = append(names, fmt.Sprintf(`{"do":"person.add","name":"person-%d"}`, i))
	}
	for i := 0; i < 15; i++ {
		names = append(names, fmt.Sprintf(`{"do":"resource.add","name":"resource-%d"}`, i))
	}
	f.accept(names...)
}

// TestLongNotices asks what an edit of many cells changed, in all ways: it is the same, and waits in no file
// afterwards.
func TestLongNotices(t *testing.T) {
	f := begin(t, t.TempDir())
	f.wide()
	session := f.session()
	_, mark := f.post(session+"/mark", "")
	since := strings.Trim(mark, `{"mark:}`)
	heard := f.listen()
	heard.next(t)
	f.accept(`{"do":"action.add","name":"another"}`)
	told := heard.next(t)
	if len(told.data) < held/2 || told.kind != "notices" {
		t.Fatalf("a listener is told %s of %d bytes", told.kind, len(told.data))
	}
	if said := f.must(session + "/notices"); said != told.data {
		t.Errorf("notices are %.200s .. %s", said, said[len(said)-50:])
	}
	if e := f.listenBehind(since).next(t); e.kind != told.kind || e.data != told.data || e.id != told.id {
		t.Errorf("who comes back is told %s %s, %.200s", e.kind, e.id, e.data)
	}
	want := asChanges(told.data, told.id)
	if said := f.lines(`{"do":"changes","since":` + since + `}`)[0]; said != want {
		t.Errorf("changes are %.200s .. %s", said, said[len(said)-50:])
	}
	some, err := f.hear(since, "?persons=person-7&persons=person-23*")
	if err != nil {
		t.Fatal(err)
	}
	defer some.leave()
	// Of 248 people twelve are wanted.
	if e := some.next(t); strings.Count(e.data, `"person":`) != strings.Count(told.data, `"person":`)*12/248 {
		t.Errorf("who wants to hear of some is told of %d, %.300s", strings.Count(e.data, `"person":`), e.data)
	}
	eventually(t, "nothing waits any more", func() bool { return f.metric("review_front_spool_bytes") == 0 })
}

// TestUnreadTables asks for tables and reads none: they wait in files, and a question in between is answered before
// most of them have come.
func TestUnreadTables(t *testing.T) {
	tables := number("FRONT_TABLES", 40)
	f := begin(t, t.TempDir())
	f.wide()
	table := f.must("/table")
	before := most(t, f.process.Process.Pid)
	var begun atomic.Int64
	var conns []net.Conn
	for i := 0; i < tables; i++ {
		conn := f.bare("/table")
		conns = append(conns, conn)
		go func() {
			if n, _ := conn.Read(make([]byte, 1)); n == 1 {
				begun.Add(1)
			}
		}()
	}
	time.Sleep(100 * time.Millisecond) // until all are asked
	f.must("/counts")
	if begun.Load() > int64(tables)/2 {
		t.Errorf("a question waits behind %d of %d tables", begun.Load(), tables)
	}
	eventually(t, "all tables are there", func() bool { return begun.Load() == int64(tables) })
	waiting := f.metric("review_front_spool_bytes")
	grown := most(t, f.process.Process.Pid) - before
	t.Logf("%d unread tables of %d bytes take %d of memory and %.0f of files", tables, len(table), grown, waiting)
	if grown > tables*held {
		t.Error("they wait in memory")
	}
	if f.must("/table") != table {
		t.Error("the table is another one")
	}
	for _, conn := range conns {
		conn.Close()
	}
	eventually(t, "nothing waits any more", func() bool { return f.metric("review_front_spool_bytes") == 0 })
}
