package main

import (
	"flag"
	"fmt"
	"net/http"
	"path/filepath"
	"strings"
	"testing"

	"review-front/limits"
)

// adding is a line that adds a person by number.
func adding(number int) string { return fmt.Sprintf(`{"do":"person.add","name":"p-%d"}`, number) }

// fill adds people up to the most, behind whom the program refuses one.
func (f *front) fill(from, most int) {
	f.t.Helper()
	var lines []string
	for i := from; i < most; i++ {
		lines = append(lines, adding(i))
	}
	f.accept(lines...)
	if reply := f.lines(adding(most))[0]; reply != `{"refused":9}` {
		f.t.Errorf("behind %d people another one is answered %s", most, reply)
	}
}

// TestLarger starts fronts over one folder with other limits each: each program has them, and who would have less than
// the folder's last front is refused, with both.
func TestLarger(t *testing.T) {
	path, people := t.TempDir(), 0
	for _, it := range []struct {
		words string
		most  int // how many people there may be; 0: the front is refused
	}{
		{"", 256},
		{"--people 400 --cells 576000", 400},
		{"", 0},
		{"--people 400", 0},
		{"--people 400 --cells 575999 --documents 2000", 0},
		{"--people 399 --cells 576000", 0},
		{"--people 401 --cells 576000", 401},
	} {
		if it.most == 0 {
			launch(t, path, strings.Fields(it.words)...).isOther(strings.Fields(it.words)...)
			continue
		}
		f := begin(t, path, append(strings.Fields(it.words), "--try-time", "1m", "--snapshot-every", "100")...)
		f.fill(people, it.most)
		people = it.most
		f.within(people)
		if status := f.stop(); status != 0 || strings.Contains(f.log(), "no snapshot was made") {
			t.Errorf("with %q the front ends with %d:\n%s", it.words, status, f.log())
		}
	}
	before, behind := filepath.Join(t.TempDir(), "out"), filepath.Join(t.TempDir(), "out")
	for to, out := range map[string]string{"256": before, "280": behind} {
		if status, _, faults := saying("restore", "--journal", path, "--to", to, out); status != 0 {
			t.Fatalf("a copy to %s ends with %d: %s", to, status, faults)
		}
	}
	begin(t, before)
	launch(t, behind).isOther()
}

// isOther sees that a front which was given limits by words doesn't start where another had 400 people, and names both.
func (f *front) isOther(words ...string) {
	f.t.Helper()
	var has limits.Limits
	set := flag.NewFlagSet("limits", flag.ContinueOnError)
	has.Name(set.IntVar)
	if err := set.Parse(words); err != nil {
		f.t.Fatal(err)
	}
	other := " with 400 people, 32 actions, 256 resources, 576000 cells, 1024 documents"
	if status := f.status(); status != 1 || !strings.Contains(f.log(), fmt.Sprint(other, ", and this one has ", has)) {
		f.t.Errorf("the front ends with %d:\n%s", status, f.log())
	}
}

// within sees that each program beside the table's, and the next one, has room for so many people too.
func (f *front) within(people int) {
	f.t.Helper()
	exchanged := fmt.Sprintf(`{"do":"person.drop","name":"p-%d"}`+"\n%s\n", people-1, adding(people-1))
	for _, query := range []string{"whole=1", "dry=1"} {
		if got := f.send(f.t, http.MethodPost, "/lines?"+query, exchanged); got.status != http.StatusOK {
			f.t.Errorf("with %d people, %s is answered %+v", people, query, got)
		}
	}
	dump, before := f.must("/dump"), len(f.programs())
	f.killProgram()
	f.another(before)
	if f.must("/dump") != dump {
		f.t.Errorf("with %d people the next program has another state", people)
	}
	most := fmt.Sprintf(`"people":{"most":%d,"taken":%d}`, people, people)
	if said := f.must("/limits"); !strings.Contains(said, most) {
		f.t.Errorf("with %d people the limits are %s", people, said)
	}
}

// TestLogLarger starts fronts over a stream: all of them have the limits of that which made it, or don't start.
func TestLogLarger(t *testing.T) {
	servers := natsServers(t, 1)
	words := []string{"--people", "400", "--cells", "576000"}
	fronts := replicas(t, servers, 2, words...)
	fronts[0].fill(0, 400)
	eventually(t, "the other has all", func() bool { return fronts[1].serial("/counts", nil) == "400" })
	if one, other := fronts[0].must("/dump"), fronts[1].must("/dump"); one != other {
		t.Error("two fronts have other states")
	}
	for _, other := range [][]string{nil, {"--people", "401", "--cells", "576000"}} {
		replica(t, t.TempDir(), logOf(servers), other...).isOther(other...)
	}
	if status := fronts[1].stop(); status != 0 {
		t.Errorf("a front ends with %d", status)
	}
	again := replica(t, fronts[1].folder, logOf(servers), words...)
	again.await()
	again.within(400)
}

// TestLimitWords sees what is said of limits that no program has.
func TestLimitWords(t *testing.T) {
	for word, most := range map[string]int{
		"people": 65_536, "actions": 1_024, "resources": 65_536, "cells": 16_777_216, "documents": 65_536,
	} {
		for number, ok := range map[int]bool{0: false, 1: true, most: true, most + 1: false} {
			var said strings.Builder
			words := []string{"--program", "a", "--journal", "b", "--" + word, fmt.Sprint(number)}
			read, status, taken := parse(words, &said)
			wrong := fmt.Sprintf("--%s is 1 to %d", word, most)
			if taken != ok || !ok && (status != 2 || !strings.Contains(said.String(), wrong)) {
				t.Errorf("%v gives %d: %s", words, status, said.String())
			}
			if ok && read.limits == limits.Standard {
				t.Errorf("%v gives the standard limits", words)
			}
		}
	}
}
