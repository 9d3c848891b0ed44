//go:build postgres

package main

import (
	"bytes"
	"context"
	"database/sql"
	"fmt"
	"io"
	"os"
	"os/exec"
	"os/user"
	"path/filepath"
	"sort"
	"strconv"
	"strings"
	"syscall"
	"testing"
	"time"

	_ "github.com/lib/pq"

	"review-front/source"
)

// database is a server of PostgreSQL that a test started.
type database struct {
	*sql.DB
	connection string
	process    *exec.Cmd
	ended      chan struct{}
}

// newDatabase starts one, or passes the test over.
func newDatabase(t *testing.T) *database {
	t.Helper()
	found, _ := filepath.Glob("/usr/lib/postgresql/*/bin/postgres")
	if len(found) == 0 {
		t.Skip("there is no postgresql")
	}
	sort.Strings(found)
	programs := filepath.Dir(found[len(found)-1])
	// The path of a socket is short.
	folder, err := os.MkdirTemp("", "db")
	if err != nil {
		t.Fatal(err)
	}
	t.Cleanup(func() { os.RemoveAll(folder) })
	own := &syscall.SysProcAttr{Pdeathsig: syscall.SIGKILL}
	if os.Getuid() == 0 {
		// It doesn't run as root.
		other, err := user.Lookup("postgres")
		if err != nil {
			t.Skip("there is no user postgres")
		}
		id, _ := strconv.Atoi(other.Uid)
		group, _ := strconv.Atoi(other.Gid)
		own.Credential = &syscall.Credential{Uid: uint32(id), Gid: uint32(group)}
		if err := os.Chown(folder, id, group); err != nil {
			t.Fatal(err)
		}
	}
	made := exec.Command(filepath.Join(programs, "initdb"), "-A", "trust", "-U", "review", "-N", "-E", "UTF8",
		"--locale=C", "-D", folder+"/data")
	made.SysProcAttr, made.Dir = own, folder
	if out, err := made.CombinedOutput(); err != nil {
		t.Fatalf("initdb: %v: %s", err, out)
	}
	d := &database{connection: "host=" + folder + " user=review dbname=postgres sslmode=disable",
		ended: make(chan struct{})}
	d.process = exec.Command(found[len(found)-1], "-D", folder+"/data", "-k", folder, "-c", "listen_addresses=", "-F")
	d.process.SysProcAttr, d.process.Dir = own, folder
	if err := d.process.Start(); err != nil {
		t.Fatal(err)
	}
	go func() {
		_ = d.process.Wait()
		close(d.ended)
	}()
	t.Cleanup(func() {
		_ = d.process.Process.Signal(syscall.SIGQUIT)
		<-d.ended
	})
	if d.DB, err = sql.Open("postgres", d.connection); err != nil {
		t.Fatal(err)
	}
	t.Cleanup(func() { d.Close() })
	eventually(t, "the database answers", func() bool { return d.Ping() == nil })
	return d
}

// do runs a statement.
func (d *database) do(t *testing.T, statement string) {
	t.Helper()
	if _, err := d.Exec(statement); err != nil {
		t.Fatal(err)
	}
}

// source is the file of a source that asks a query.
func (d *database) source(query string) string {
	return fmt.Sprintf(`{"source":"db","module":1,"people":{"postgres":{"connection":%q,"query":%q,"notify":"people"},
		"name":"login","attributes":{"department":"dept","teams":"teams","since":{"from":"since","type":"date"},
		"seen":{"from":"seen","type":"dateTime"},"cleared":{"from":"cleared","type":"boolean"},
		"level":{"from":"level","type":"integer"}}}}`, d.connection, query)
}

// TestSourceDatabase asks a database, again as soon as it says that something changed.
func TestSourceDatabase(t *testing.T) {
	d := newDatabase(t)
	d.do(t, `create table people (login text, dept text, teams text[], since date, seen timestamptz, cleared bool,
		level int)`)
	d.do(t, `insert into people values ('ann', 'it', '{b,a,NULL,"x,y"}', '2020-02-01', '2026-01-31 10:00:00.5+01', true, 7),
		('bob', null, '{}', null, null, false, -1)`)
	s := newSourced(t, begin(t, t.TempDir()))
	s.write("db.json", d.source("select * from people"))
	s.does("db: 2 added", "run")
	s.does("db: 0 added, 0 set, 0 dropped", "run")
	rows := func(name string) string { return s.f.must("/attributes?category=AccessSubject&entity=" + name) }
	for _, want := range []string{
		`["a","b","x,y"]`, `["2020-02-01"]`, `["2026-01-31T09:00:00"]`, `[true]`, `[7]`, `["it"]`,
	} {
		if told := rows("ann"); !strings.Contains(told, want) {
			t.Errorf("ann has no %s, but %s", want, told)
		}
	}
	for query, want := range map[string]string{
		"select login, dept from people":                        `"cleared" is the name of 0 of its columns`,
		"select *, 1/(level+1) from people order by level desc": "division by zero",
		"delete from people returning *":                        "read-only",
		"select * from people union all select * from people":   "stands at row",
		"select 'p' || n as login, null as dept, null as teams, null as since, null as seen, null as cleared, " +
			"1/(5000-n) as level from generate_series(1, 6000) n": "division by zero",
	} {
		s.write("db.json", d.source(query))
		s.fails(1, want, "run", "--at-most", "100%")
	}
	s.write("db.json", d.source("select * from people"))
	ctx, stop := context.WithCancel(context.Background())
	ended := make(chan int, 1)
	var faults bytes.Buffer
	go func() {
		words := []string{"run", "--every", "1h", "--front", "http://" + s.f.address, s.folder}
		ended <- source.Run(ctx, words, io.Discard, &faults)
	}()
	listens := `select count(*) from pg_stat_activity where query like 'LISTEN%'`
	eventually(t, "it listens", func() bool {
		var count int
		return d.QueryRow(listens).Scan(&count) == nil && count == 1
	})
	for n := 0; n < 3; n++ {
		began := time.Now()
		d.do(t, fmt.Sprintf("insert into people (login, dept) values ('n%d', 'it'); notify people", n))
		eventually(t, "the table has who was told", func() bool { return strings.Contains(rows(fmt.Sprint("n", n)), "it") })
		t.Logf("a NOTIFY is in the table after %v", time.Since(began))
	}
	// What is told while it doesn't listen is found as soon as it listens again.
	d.do(t, `select pg_terminate_backend(pid) from pg_stat_activity `+
		`where query like 'LISTEN%' and pid <> pg_backend_pid()`)
	d.do(t, "delete from people where login = 'bob'; notify people")
	eventually(t, "the table hasn't who left", func() bool {
		return s.f.must("/names?list=people") == `{"names":["ann","n0","n1","n2"]}`
	})
	stop()
	if status := <-ended; status != 0 {
		t.Errorf("it ends with %d: %s", status, faults.String())
	}
}

// TestSourceNotified tells how long a NOTIFY takes to the table of many people: 50,000 with FRONT_PEOPLE.
func TestSourceNotified(t *testing.T) {
	count := number("FRONT_PEOPLE", 1000)
	d := newDatabase(t)
	d.do(t, `create table people (login text, dept text, teams text[], since date, seen timestamptz, cleared bool,
		level int)`)
	d.do(t, fmt.Sprintf(`insert into people select 'p' || n, 'd' || n %% 50, array['a', 'b'], '2020-01-01', '2026-01-01',
		true, n from generate_series(1, %d) n`, count))
	s := newSourced(t, begin(t, t.TempDir(), "--people", "65536", "--cells", "1000000", "--try-time", "5m"))
	s.write("db.json", d.source("select * from people"))
	ctx, stop := context.WithCancel(context.Background())
	ended := make(chan int, 1)
	go func() {
		words := []string{"run", "--every", "1h", "--front", "http://" + s.f.address, s.folder}
		ended <- source.Run(ctx, words, io.Discard, io.Discard)
	}()
	rows := func(name string) string { return s.f.must("/attributes?category=AccessSubject&entity=" + name) }
	eventually(t, "all are there", func() bool {
		return strings.Contains(s.f.must("/state"), fmt.Sprintf(`"people":%d,`, count))
	})
	time.Sleep(time.Duration(count/1000) * 100 * time.Millisecond) // what the first round still reads isn't counted
	for n := 1; n <= 3; n++ {
		began := time.Now()
		d.do(t, fmt.Sprintf("update people set dept = 'moved' where login = 'p%d'; notify people", n))
		eventually(t, "the table has it", func() bool { return strings.Contains(rows(fmt.Sprint("p", n)), "moved") })
		t.Logf("of %d people a NOTIFY is in the table after %v", count, time.Since(began))
	}
	stop()
	<-ended
}
