package main

import (
	"bufio"
	"encoding/json"
	"errors"
	"flag"
	"fmt"
	"io"
	"time"

	"review-front/folder"
)

// history writes who edited what, and when, as lines of JSON.
func history(words []string, to, faults io.Writer) int {
	set := flag.NewFlagSet("review-front history", flag.ContinueOnError)
	set.SetOutput(faults)
	journal := set.String("journal", "", "the `folder` of journals")
	since := set.String("since", "", "edits from this `time` on, as 2026-03-31 or 2026-03-31T09:00:00Z")
	until := set.String("until", "", "edits before this `time`")
	by := set.String("by", "", "edits of this `name` alone")
	if err := set.Parse(words); errors.Is(err, flag.ErrHelp) {
		return 0
	} else if err != nil {
		return 2
	}
	from, err1 := timeOf(*since)
	before, err2 := timeOf(*until)
	if *journal == "" || len(set.Args()) > 0 || err1 != nil || err2 != nil {
		fmt.Fprintln(faults, "review-front history: --journal FOLDER is needed, "+
			"and a time is as 2026-03-31 or 2026-03-31T09:00:00Z")
		return 2
	}
	wanted := func(e folder.Entry) bool {
		early, late := !from.IsZero() && e.Time.Before(from), !before.IsZero() && !e.Time.Before(before)
		return !early && !late && (*by == "" || e.By == *by)
	}
	if err := tell(*journal, to, wanted); err != nil {
		fmt.Fprintln(faults, "review-front history:", err)
		return 1
	}
	return 0
}

// tell writes the edits that are wanted.
func tell(journal string, to io.Writer, wanted func(folder.Entry) bool) error {
	out := bufio.NewWriter(to)
	var written []byte
	err := folder.History(journal, 0, func(e folder.Entry) error {
		if !wanted(e) {
			return nil
		}
		written = append(e.Append(written[:0]), '\n')
		_, err := out.Write(written)
		return err
	})
	if flushed := out.Flush(); err == nil {
		err = flushed
	}
	return err
}

// timeOf reads a day or a moment; nothing is no time.
func timeOf(written string) (time.Time, error) {
	if written == "" {
		return time.Time{}, nil
	}
	if day, err := time.Parse("2006-01-02", written); err == nil {
		return day, nil
	}
	return time.Parse(time.RFC3339, written)
}

// countsOf reads the reply to `counts`.
func countsOf(reply []byte) (map[string]float64, error) {
	var said struct{ Counts map[string]float64 }
	if err := json.Unmarshal(reply, &said); err != nil {
		return nil, fmt.Errorf("the counts: %w", err)
	}
	return said.Counts, nil
}
