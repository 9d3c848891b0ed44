package main

import (
	"bytes"
	"crypto/sha256"
	"encoding/hex"
	"encoding/json"
	"fmt"
	"os"
	"os/exec"
	"path/filepath"
	"regexp"
	"strconv"
	"strings"
	"testing"

	"review-front/frame"
)

// forger is somebody who knows the form of a folder's files, and writes them anew with right sums.
type forger struct {
	t       *testing.T
	path    string
	records []forgedRecord
	anew    bool // whether he makes the chain anew, too
}

// forgedRecord is a record of an edit: in which file, what it goes on from, and what it says from its time on.
type forgedRecord struct {
	file, chain, rest string
	serial            uint64
	synced            int
}

var (
	recordOf = regexp.MustCompile(`^\{"synced":(\d+),"chain":"([0-9a-f]{64})",(.*)$`)
	serialOf = regexp.MustCompile(`"serial":(\d+)`)
)

// readForged reads all records of a folder.
func readForged(t *testing.T, path string) *forger {
	t.Helper()
	f := &forger{t: t, path: path}
	for _, name := range f.files("journal-") {
		for i, record := range f.read(name) {
			if i == 0 {
				continue
			}
			found := recordOf.FindStringSubmatch(string(record))
			if found == nil {
				t.Fatalf("a record of %s is %s", name, record)
			}
			one := forgedRecord{file: name, chain: found[2], rest: found[3]}
			one.synced, _ = strconv.Atoi(found[1])
			if _, err := fmt.Sscan(serialOf.FindStringSubmatch(one.rest)[1], &one.serial); err != nil {
				t.Fatal(err)
			}
			f.records = append(f.records, one)
		}
	}
	return f
}

func (f *forger) files(kind string) []string {
	names, err := filepath.Glob(filepath.Join(f.path, kind+"*"))
	if err != nil {
		f.t.Fatal(err)
	}
	return names
}

// read reads the records of a file.
func (f *forger) read(name string) (records [][]byte) {
	content, err := os.ReadFile(name)
	if err != nil {
		f.t.Fatal(err)
	}
	all := frame.NewReader(bytes.NewReader(content), name)
	for record, err := all.Next(); err == nil; record, err = all.Next() {
		records = append(records, record)
	}
	return records
}

// at is where the record of a serial stands among all.
func (f *forger) at(serial uint64) int {
	for i, one := range f.records {
		if one.serial == serial {
			return i
		}
	}
	f.t.Fatalf("there is no serial %d", serial)
	return 0
}

// head changes the head of a file.
func (f *forger) head(written []byte, change func(head map[string]json.RawMessage)) []byte {
	var head map[string]json.RawMessage
	if err := json.Unmarshal(written, &head); err != nil {
		f.t.Fatal(err)
	}
	change(head)
	// The order of the keys tells nothing.
	again, err := json.Marshal(head)
	if err != nil {
		f.t.Fatal(err)
	}
	return again
}

// write writes all journals anew, with right sums, and the heads of snapshots as they have to be.
func (f *forger) write() {
	f.t.Helper()
	parts, chains := map[uint64]string{}, map[uint64]string{}
	chain, before := strings.Repeat("0", 64), ""
	for _, name := range f.files("journal-") {
		head := f.head(f.read(name)[0], func(head map[string]json.RawMessage) {
			if before != "" {
				head["before"] = json.RawMessage(before)
			}
			if f.anew {
				head["chain"] = json.RawMessage(`"` + chain + `"`)
			}
		})
		content := frame.Append(nil, head)
		number := strings.TrimLeft(strings.TrimPrefix(filepath.Base(name), "journal-"), "0")
		for _, one := range f.records {
			if one.file != name {
				continue
			}
			said := one.chain
			if f.anew {
				said = chain
			}
			if one.synced > len(content) {
				one.synced = len(content)
			}
			content = frame.Append(content, []byte(fmt.Sprintf(`{"synced":%d,"chain":"%s",%s`, one.synced, said, one.rest)))
			value, _ := hex.DecodeString(chain)
			sum := sha256.Sum256(append(value, "{"+one.rest...))
			chain = hex.EncodeToString(sum[:])
			whole := sha256.Sum256(content)
			before = fmt.Sprintf(`{"journal":%s,"serial":%d,"bytes":%d,"sum":"%x"}`, number, one.serial, len(content), whole)
			parts[one.serial], chains[one.serial] = before, chain
		}
		f.put(name, content)
	}
	for _, name := range f.files("snapshot-") {
		records := f.read(name)
		records[0] = f.head(records[0], func(head map[string]json.RawMessage) {
			var serial uint64
			_ = json.Unmarshal(head["after"], &serial)
			head["before"] = json.RawMessage(parts[serial])
			if f.anew {
				head["chain"] = json.RawMessage(`"` + chains[serial] + `"`)
			}
		})
		var content []byte
		for _, record := range records {
			content = frame.Append(content, record)
		}
		f.put(name, content)
	}
}

func (f *forger) put(name string, content []byte) {
	if err := os.WriteFile(name, content, 0o600); err != nil {
		f.t.Fatal(err)
	}
}

// folderCopied is a copy of a folder.
func folderCopied(t *testing.T, path string) string {
	t.Helper()
	to := filepath.Join(t.TempDir(), "copy")
	if out, err := exec.Command("cp", "-r", path, to).CombinedOutput(); err != nil {
		t.Fatalf("%v: %s", err, out)
	}
	return to
}

// signing makes a pair of keys, and gives their files.
func signing(t *testing.T) (key, public string) {
	t.Helper()
	key, public = filepath.Join(t.TempDir(), "key"), filepath.Join(t.TempDir(), "public")
	for _, words := range [][]string{
		{"genpkey", "-algorithm", "ed25519", "-out", key}, {"pkey", "-in", key, "-pubout", "-out", public},
	} {
		if out, err := exec.Command("openssl", words...).CombinedOutput(); err != nil {
			t.Skipf("openssl makes no key: %v: %s", err, out)
		}
	}
	return key, public
}

// verified is what `verify` says, and whether it finds all sound.
func verified(path string, words ...string) (string, bool) {
	var to, faults bytes.Buffer
	status := verify(append([]string{"--journal", path}, words...), &to, &faults)
	return to.String() + faults.String(), status == 0
}

// TestForged has somebody who knows the format change a journal, with right sums: what he does without making the chain
// anew is told by itself, and all by a head that was kept elsewhere. What no head speaks of yet isn't.
func TestForged(t *testing.T) {
	key, public := signing(t)
	path, kept := t.TempDir(), filepath.Join(t.TempDir(), "kept")
	words := []string{"--sign-key", key, "--heads-to", kept}
	lines := clinic(t)
	f := begin(t, path, words...)
	f.accept(lines[:40]...)
	f.stop()
	f = begin(t, path, words...)
	f.accept(lines[40:]...)
	last := filepath.Join(t.TempDir(), "last")
	if err := os.WriteFile(last, []byte(f.must("/head")+"\n"), 0o600); err != nil {
		t.Fatal(err)
	}
	f.stop()
	if all, err := os.ReadFile(kept); err != nil || !strings.Contains(string(all), `"serial":69`) {
		t.Fatalf("what was sent elsewhere is %s: %v", all, err)
	}
	at := []string{"--key", public, "--head", kept, "--head", last}
	honest := "heads are as the journals are, the last of serial 69"
	if said, sound := verified(path, at...); !sound || !strings.Contains(said, honest) {
		t.Fatalf("an honest folder: %s", said)
	}
	for what, one := range map[string]struct {
		change func(f *forger)
		anew   bool
		alone  string // what is told without a head, or nothing
		headed string // what with one
	}{
		"rewritten": {func(f *forger) {
			one := &f.records[f.at(30)]
			one.rest = strings.Replace(one.rest, `"by":"127.0.0.1"`, `"by":"somebody"`, 1)
		}, false, "serial 30 was changed", "serial 30 was changed"},
		"rewritten, the last one": {func(f *forger) {
			one := &f.records[f.at(69)]
			one.rest = strings.Replace(one.rest, `"by":"127.0.0.1"`, `"by":"somebody"`, 1)
		}, false, "its chain is another one", "its chain is another one"},
		"dropped": {func(f *forger) {
			f.drop(50)
		}, false, "serial 49 was changed, or others stood behind it", "serial 49 was changed, or others stood behind it"},
		"exchanged": {func(f *forger) {
			a, b := &f.records[f.at(20)], &f.records[f.at(21)]
			a.rest, b.rest = renumbered(b.rest, 20), renumbered(a.rest, 21)
		}, false, "serial 20 was changed", "serial 20 was changed"},
		"cut off": {func(f *forger) {
			f.records = f.records[:f.at(60)]
			f.forget(60)
		}, true, "", "the journals end at serial 59: the end was cut off"},
		"made anew from serial 30 on": {func(f *forger) {
			one := &f.records[f.at(30)]
			one.rest = strings.Replace(one.rest, `"by":"127.0.0.1"`, `"by":"somebody"`, 1)
		}, true, "", "the head of serial 40, made"},
		"made anew from serial 50 on": {func(f *forger) {
			one := &f.records[f.at(50)]
			one.rest = strings.Replace(one.rest, `"by":"127.0.0.1"`, `"by":"somebody"`, 1)
		}, true, "", "up to serial 40 all is as a head says"},
	} {
		folder := folderCopied(t, path)
		forged := readForged(t, folder)
		forged.anew = one.anew
		one.change(forged)
		forged.write()
		said, sound := verified(folder)
		if sound != (one.alone == "") || !strings.Contains(said, one.alone) {
			t.Errorf("%s, without a head: %v\n%s", what, sound, said)
		}
		if said, sound = verified(folder, at...); sound || !strings.Contains(said, one.headed) {
			t.Errorf("%s, with heads: %v\n%s", what, sound, said)
		}
	}
	_, strange := signing(t)
	said, sound := verified(path, "--key", strange, "--head", last)
	if sound || !strings.Contains(said, "it isn't signed by the key") {
		t.Errorf("a head of another key: %v %s", sound, said)
	}
}

// drop takes the record of a serial away, and numbers those behind it so that none is missed.
func (f *forger) drop(serial uint64) {
	at := f.at(serial)
	f.records = append(f.records[:at], f.records[at+1:]...)
	for i := at; i < len(f.records); i++ {
		f.records[i].serial--
		f.records[i].rest = renumbered(f.records[i].rest, f.records[i].serial)
	}
	f.forget(69)
}

// forget takes away the snapshots from a serial on.
func (f *forger) forget(serial uint64) {
	for _, name := range f.files("snapshot-") {
		var at uint64
		_, _ = fmt.Sscan(strings.TrimLeft(strings.TrimPrefix(filepath.Base(name), "snapshot-"), "0"), &at)
		if at >= serial {
			if err := os.Remove(name); err != nil {
				f.t.Fatal(err)
			}
		}
	}
	// The journal that was begun behind the last edit goes, too, and so does what is said of it.
	if err := os.Remove(filepath.Join(f.path, fmt.Sprintf("journal-%020d", 70))); err != nil {
		f.t.Fatal(err)
	}
	listed := `{"kind":"journals","format":2,"first":1,"newest":41}`
	f.put(filepath.Join(f.path, "journals"), frame.Append(nil, []byte(listed)))
}

// renumbered is what a record says with another serial.
func renumbered(rest string, serial uint64) string {
	return serialOf.ReplaceAllString(rest, fmt.Sprintf(`"serial":%d`, serial))
}
