package main

import (
	"fmt"
	"strings"
	"testing"
	"time"
)

// TestSourceMany brings many people, and tells how long it takes to read and to compare them: 50,000 with FRONT_PEOPLE.
func TestSourceMany(t *testing.T) {
	count := number("FRONT_PEOPLE", 1000)
	s := newSourced(t, begin(t, t.TempDir(), "--people", "65536", "--cells", "1000000", "--try-time", "5m"))
	s.write("hr.json", hrSource)
	text := strings.Builder{}
	text.WriteString(hrHead)
	for n := 0; n < count; n++ {
		fmt.Fprintf(&text, "p%d,d%d,t%d|t%d,01.02.2020,%v\n", n, n%50, n%7, n%11, n%2 == 0)
	}
	s.write("people.csv", text.String())
	began := time.Now()
	s.does(fmt.Sprintf("hr: %d added", count), "run")
	t.Logf("%d people were added in %v", count, time.Since(began))
	began = time.Now()
	s.does("hr: 0 added, 0 set, 0 dropped", "plan")
	t.Logf("%d people were read and compared in %v", count, time.Since(began))
}
