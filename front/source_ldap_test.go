//go:build ldap

package main

import (
	"bytes"
	"context"
	"fmt"
	"io"
	"net"
	"os"
	"os/exec"
	"path/filepath"
	"strings"
	"syscall"
	"testing"
	"time"

	"github.com/go-ldap/ldap/v3"

	"review-front/source"
)

// directory is a slapd that a test started.
type directory struct {
	t           testing.TB
	address     string
	certificate string
	process     *exec.Cmd
	ended       chan struct{}
}

const suffix = "dc=clinic,dc=example"

// newDirectory starts slapd over entries of LDIF below the suffix, or passes the test over.
func newDirectory(t *testing.T, entries string) *directory {
	t.Helper()
	path := "/usr/sbin/slapd"
	if _, err := os.Stat(path); err != nil {
		t.Skip("there is no slapd")
	}
	folder := t.TempDir()
	certificate, key := certified(t, folder, "directory")
	conf := filepath.Join(folder, "slapd.conf")
	lines := []string{"include /etc/ldap/schema/core.schema", "include /etc/ldap/schema/cosine.schema",
		"include /etc/ldap/schema/inetorgperson.schema", "modulepath /usr/lib/ldap", "moduleload back_mdb",
		"pidfile " + folder + "/pid", "TLSCertificateFile " + certificate, "TLSCertificateKeyFile " + key,
		"sizelimit size.soft=100 size.hard=unlimited size.pr=500 size.prtotal=unlimited",
		"database mdb", "maxsize 200000000", "suffix " + suffix, "rootdn cn=admin," + suffix, "rootpw secret",
		"directory " + folder, "index objectClass,uid,entryUUID eq", "dbnosync"}
	write := func(name, content string) {
		if err := os.WriteFile(filepath.Join(folder, name), []byte(content), 0o600); err != nil {
			t.Fatal(err)
		}
	}
	write("slapd.conf", strings.Join(lines, "\n")+"\n")
	write("entries.ldif", "dn: "+suffix+"\nobjectClass: domain\ndc: clinic\n\n"+entries)
	add := exec.Command(path, "-T", "add", "-q", "-f", conf, "-l", filepath.Join(folder, "entries.ldif"))
	if out, err := add.CombinedOutput(); err != nil {
		t.Fatalf("slapadd: %v: %s", err, out)
	}
	listener, err := net.Listen("tcp", "127.0.0.1:0")
	if err != nil {
		t.Fatal(err)
	}
	d := &directory{t: t, address: "ldap://" + listener.Addr().String(), certificate: certificate}
	listener.Close()
	d.process = exec.Command(path, "-f", conf, "-h", d.address, "-d", "0")
	d.begin()
	return d
}

// begin starts it, and waits until it answers.
func (d *directory) begin() {
	d.t.Helper()
	d.process = exec.Command(d.process.Path, d.process.Args[1:]...)
	if err := d.process.Start(); err != nil {
		d.t.Fatal(err)
	}
	d.ended = make(chan struct{})
	ended, process := d.ended, d.process
	go func() {
		_ = process.Wait()
		close(ended)
	}()
	d.t.Cleanup(d.kill)
	eventually(d.t, "the directory answers", func() bool {
		conn, err := ldap.DialURL(d.address)
		if err == nil {
			conn.Close()
		}
		return err == nil
	})
}

// kill ends it at once.
func (d *directory) kill() {
	_ = d.process.Process.Kill()
	<-d.ended
}

// admin is a connection that may change everything.
func (d *directory) admin() *ldap.Conn {
	d.t.Helper()
	conn, err := ldap.DialURL(d.address)
	if err == nil {
		err = conn.Bind("cn=admin,"+suffix, "secret")
	}
	if err != nil {
		d.t.Fatal(err)
	}
	d.t.Cleanup(conn.Close)
	return conn
}

// member is the LDIF of a person.
func member(n int) string {
	return fmt.Sprintf("dn: uid=p%d,%s\nobjectClass: inetOrgPerson\nuid: p%d\ncn: p%d\nsn: p\ndepartmentNumber: d%d\n"+
		"modifyTimestamp: 20200101000000Z\n\n", n, suffix, n, n, n%7)
}

// group is the LDIF of a group.
func group(name string, members ...string) string {
	text := "dn: cn=" + name + "," + suffix + "\nobjectClass: groupOfNames\ncn: " + name + "\n"
	for _, one := range members {
		text += "member: " + one + "," + suffix + "\n"
	}
	return text + "\n"
}

// source is the file of a source that reads it.
func (d *directory) source(more string) string {
	return fmt.Sprintf(`{"source":"ldap","module":1,"people":{"ldap":{"address":%q,"bind":"cn=admin,%s",
		"password_file":"password","base":%q,"filter":"(objectClass=inetOrgPerson)","groups":{"base":%q,
		"filter":"(objectClass=groupOfNames)","member":"member","name":"cn","as":"groups"}%s},
		"name":"UID","attributes":{"department":"departmentnumber","groups":"groups"}}}`,
		d.address, suffix, suffix, suffix, more)
}

// TestSourceDirectory reads a directory whose entries change and leave: entries, groups within groups, a circle of
// them.
func TestSourceDirectory(t *testing.T) {
	count := number("FRONT_ENTRIES", 1200)
	text := strings.Builder{}
	for n := 0; n < count; n++ {
		text.WriteString(member(n))
	}
	text.WriteString(group("all", "uid=p1", "CN=Night") + group("night", "uid= P2", "cn=round") +
		group("round", "cn=all", "uid=p3"))
	d := newDirectory(t, text.String())
	s := newSourced(t, begin(t, t.TempDir(), "--people", "6000", "--try-time", "1m"))
	s.write("password", "secret\n")
	s.write("ldap.json", d.source(""))
	s.does(fmt.Sprintf("ldap: %d added", count), "run")
	s.does("ldap: 0 added, 0 set, 0 dropped", "run")
	rows := func(name string) string { return s.f.must("/attributes?category=AccessSubject&entity=" + name) }
	for name, groups := range map[string]string{"p1": `["all","night","round"]`, "p2": `["all","night","round"]`,
		"p4": ""} {
		if told := rows(name); !strings.Contains(told, groups) || groups == "" && strings.Contains(told, "groups") {
			t.Errorf("%s has %s", name, told)
		}
	}
	// It is read again and again by one process, which knows what didn't change.
	ctx, stop := context.WithCancel(context.Background())
	ended := make(chan int, 1)
	var faults bytes.Buffer
	go func() {
		words := []string{"run", "--every", "100ms", "--front", "http://" + s.f.address, s.folder}
		ended <- source.Run(ctx, words, io.Discard, &faults)
	}()
	defer func() {
		stop()
		if status := <-ended; status != 0 {
			t.Errorf("it ends with %d: %s", status, faults.String())
		}
	}()
	admin := d.admin()
	changed := func(err error) {
		t.Helper()
		if err != nil {
			t.Fatal(err)
		}
	}
	left := 0
	for n := 10; n < 200; n++ {
		switch dn := fmt.Sprintf("uid=p%d,%s", n, suffix); n % 4 {
		case 0:
			left++
			changed(admin.Del(ldap.NewDelRequest(dn, nil)))
		case 1:
			modify := ldap.NewModifyRequest(dn, nil)
			modify.Replace("departmentNumber", []string{"moved", "again"})
			changed(admin.Modify(modify))
		case 2:
			changed(admin.ModifyDN(ldap.NewModifyDNRequest(dn, fmt.Sprintf("uid=q%d", n), true, "")))
		}
	}
	modify := ldap.NewModifyRequest("cn=night,"+suffix, nil)
	modify.Delete("member", []string{"uid=p2," + suffix})
	changed(admin.Modify(modify))
	eventually(t, "the front has the directory", func() bool {
		return strings.Contains(s.f.must("/state"), fmt.Sprintf(`"people":%d,`, count-left)) &&
			strings.Contains(rows("p197"), `["again","moved"]`) && strings.Contains(rows("q198"), `["d2"]`) &&
			!strings.Contains(rows("p2"), "groups")
	})
	// The directory dies and comes again: nobody is dropped.
	d.kill()
	time.Sleep(300 * time.Millisecond)
	d.begin()
	changed(d.admin().Del(ldap.NewDelRequest("uid=p3,"+suffix, nil)))
	eventually(t, "the front hears of who left later", func() bool {
		return strings.Contains(s.f.must("/state"), fmt.Sprintf(`"people":%d,`, count-left-1))
	})
	stop()
	s.does("ldap: 0 added, 0 set, 0 dropped", "run") // a new process, which reads all, finds the same
}

// TestSourceStartTLS reads a directory over TLS, and not one whose certificate isn't signed so, nor with a wrong
// password.
func TestSourceStartTLS(t *testing.T) {
	d := newDirectory(t, member(1)+member(2)+group("g", "uid=p1"))
	s := newSourced(t, begin(t, t.TempDir()))
	s.write("password", "secret\n")
	own, err := os.ReadFile(d.certificate)
	if err != nil {
		t.Fatal(err)
	}
	other, _ := certified(t, s.folder, "other")
	s.write("authority.pem", string(own))
	s.write("ldap.json", d.source(`,"start_tls":true`))
	s.fails(1, "certificate", "run")
	s.write("ldap.json", d.source(`,"start_tls":true,"authority":"`+other+`"`))
	s.fails(1, "certificate", "run")
	s.write("ldap.json", d.source(`,"start_tls":true,"authority":"authority.pem"`))
	s.does("ldap: 2 added", "run")
	s.write("password", "wrong\n")
	s.fails(1, "Invalid Credentials", "run")
}

// cutBehind is an address behind which a connection ends after so many bytes of what it answers.
func cutBehind(t *testing.T, to string, after int64) string {
	t.Helper()
	listener, err := net.Listen("tcp", "127.0.0.1:0")
	if err != nil {
		t.Fatal(err)
	}
	t.Cleanup(func() { listener.Close() })
	go func() {
		for {
			client, err := listener.Accept()
			if err != nil {
				return
			}
			server, err := net.Dial("tcp", to)
			if err != nil {
				client.Close()
				continue
			}
			go func() {
				_, _ = io.Copy(server, client)
			}()
			go func() {
				_, _ = io.CopyN(client, server, after)
				client.Close()
				server.Close()
			}()
		}
	}()
	return listener.Addr().String()
}

// TestSourceDies has a directory die after so many bytes: either it told all, or nothing of it is taken.
func TestSourceDies(t *testing.T) {
	text := strings.Builder{}
	for n := 0; n < 300; n++ {
		text.WriteString(member(n))
	}
	d := newDirectory(t, text.String()+group("g", "uid=p1"))
	s := newSourced(t, begin(t, t.TempDir(), "--people", "6000"))
	s.write("password", "secret\n")
	s.write("ldap.json", d.source(`,"page":50`))
	s.does("ldap: 300 added", "run")
	to := strings.TrimPrefix(d.address, "ldap://")
	for _, after := range []int64{0, 5, 14, 100, 1000, 5000, 20_000, 30_000, 40_000} {
		s.write("ldap.json", strings.Replace(d.source(`,"page":50`), to, cutBehind(t, to, after), 1))
		s.fails(1, "ldap", "run", "--at-most", "100%", "--timeout", "1m")
	}
	s.write("ldap.json", d.source(""))
	if err := d.process.Process.Signal(syscall.SIGTERM); err != nil {
		t.Fatal(err)
	}
	<-d.ended
	s.fails(1, "refused", "run", "--at-most", "100%")
}

// TestSourceReferral reads a directory of which a part is elsewhere: nothing of it is taken.
func TestSourceReferral(t *testing.T) {
	d := newDirectory(t, member(1)+group("g", "uid=p1")+"dn: ou=other,"+suffix+"\nobjectClass: referral\n"+
		"objectClass: extensibleObject\nou: other\nref: ldap://elsewhere.example/ou=other,"+suffix+"\n\n")
	s := newSourced(t, begin(t, t.TempDir()))
	s.write("password", "secret\n")
	s.write("ldap.json", d.source(""))
	s.fails(1, "it refers to ldap://elsewhere.example/", "run")
}
