// Measures what the front costs, beside the pipe alone in one run.
//
//	bench/front/run.sh [PROGRAM]      default: crates/review/out/review
//
// Asks of the clinic: lines in the pipe alone, and then requests to the front over 1, 32 and 256 kept connections,
// each of which waits for its answer. Edits of 16 clients, and how many came to the disk together. The start from
// 100,000 edits, with a snapshot and without. Asks while a snapshot is made, and between. Asks beside edits of a policy
// on which a large table rests, without askers and with one and three. Only where it is named (`log`), and nats-server is
// there: edits and asks over 1, 2 and 4 fronts of a stream that three servers keep; and (`proxies`), where nginx is,
// requests through it, alone and where it asks the front; and (`history`) a new root over 1,000,000 cells, with and
// without what edits changed being kept.
package main

import (
	"flag"
	"fmt"
	"os"
	"time"
)

// run is what a measurement works with.
type run struct {
	program, front, clinic, folder string
	time                           time.Duration
	edits                          int
}

func main() {
	var r run
	flag.StringVar(&r.program, "program", "crates/review/out/review", "the program")
	flag.StringVar(&r.front, "front", "front/out/review-front", "the front")
	flag.StringVar(&r.clinic, "lines", "examples/clinic/clinic.jsonl", "the lines that make the state")
	flag.DurationVar(&r.time, "time", 5*time.Second, "how long each measurement of asks takes")
	flag.IntVar(&r.edits, "edits", 100_000, "how many edits the starts begin with")
	only := flag.String("only", "asks,edits,starts,snapshots,beside", "what is measured")
	flag.Parse()
	if err := r.measure(*only); err != nil {
		fmt.Fprintln(os.Stderr, "bench/front:", err)
		os.Exit(1)
	}
}
