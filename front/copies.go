package main

import (
	"errors"
	"flag"
	"fmt"
	"io"
	"math"
	"strconv"
	"time"

	"review-front/folder"
	"review-front/jetstream"
)

// worded reads the words of a command that reads a folder. Where it has nothing to do it gives the exit status.
func worded(
	command string, words []string, rest int, faults io.Writer, more func(*flag.FlagSet),
) (journal string, others []string, status int, ok bool) {
	set := flag.NewFlagSet("review-front "+command, flag.ContinueOnError)
	set.SetOutput(faults)
	set.StringVar(&journal, "journal", "", "the `folder` of journals")
	if more != nil {
		more(set)
	}
	if err := set.Parse(words); errors.Is(err, flag.ErrHelp) {
		return "", nil, 0, false
	} else if err != nil {
		return "", nil, 2, false
	}
	if journal == "" || set.NArg() != rest {
		fmt.Fprint(faults, "review-front ", command, ": --journal FOLDER is needed, and behind it ", rest, " words\n")
		return "", nil, 2, false
	}
	return journal, set.Args(), 0, true
}

// failed says why a command couldn't do what it was to do.
func failed(command string, faults io.Writer, err error) int {
	fmt.Fprintf(faults, "review-front %s: %v\n", command, err)
	return 1
}

// verify tells each fault of a folder by its file and place, and what a start would drop.
func verify(words []string, to, faults io.Writer) int {
	if isOfEvidence(words) {
		return verifyEvidence(words, to, faults)
	}
	var key string
	var files list
	var stream jetstream.Options
	journal, _, status, ok := worded("verify", words, 0, faults, func(set *flag.FlagSet) {
		set.StringVar(&key, "key", "", "the `file` of the public key by which heads have to be signed")
		set.Var(&files, "head", "a `file` of heads that were kept elsewhere, or a stream as --heads-to has it; may stand "+
			"several times")
		set.StringVar(&stream.Credentials, "log-credentials", "", "a `file` by which its servers know who asks")
		set.StringVar(&stream.Authority, "log-authority", "", "a `file` with certificates that sign those of its servers")
	})
	if !ok {
		return status
	}
	found, err := folder.Verify(journal)
	if err != nil {
		return failed("verify", faults, err)
	}
	given, err := readGiven(journal, key, files, stream)
	if err != nil {
		return failed("verify", faults, err)
	}
	for _, fault := range found.Faults {
		fmt.Fprintln(to, fault)
	}
	if torn := found.Tail; torn != nil {
		fmt.Fprintf(to, "%s: the next start drops %d bytes from byte %d on: %s\n", torn.File, torn.Bytes, torn.Place, torn.What)
	}
	same, err := given.compare(journal, to)
	if err != nil {
		return failed("verify", faults, err)
	}
	if len(found.Faults) > 0 || !same {
		return 1
	}
	if found.Files == 0 {
		fmt.Fprintf(to, "%s has no journals and no snapshots: there is nothing to look at\n", journal)
		return 1
	}
	fmt.Fprintf(to, "%d files are sound: the edits behind serial %d, up to %d\n", found.Files, found.Begins, found.Ends)
	return 0
}

// repair makes a copy of what is sound, and says what isn't in it.
func repair(words []string, to, faults io.Writer) int {
	journal, out, status, ok := worded("repair", words, 1, faults, nil)
	if !ok {
		return status
	}
	copied, err := folder.Copy(journal, out[0], folder.Until{Serial: math.MaxUint64}, true)
	if err != nil {
		return failed("repair", faults, err)
	}
	tellCopy(to, out[0], copied)
	if copied.Fault != nil {
		fmt.Fprintln(to, copied.Fault)
	}
	if copied.Known > copied.Ends {
		fmt.Fprintf(to, "lost: the edits of serials %d to %d, and any behind them\n", copied.Ends+1, copied.Known)
	}
	return 0
}

func tellCopy(to io.Writer, out string, copied *folder.Copied) {
	fmt.Fprintf(to, "%s has the state of serial %d, and the edits behind serial %d\n", out, copied.Ends, copied.Begins)
}

// restore makes a folder that ends at an earlier edit or time.
func restore(words []string, to, faults io.Writer) int {
	var end string
	journal, out, status, ok := worded("restore", words, 1, faults, func(set *flag.FlagSet) {
		set.StringVar(&end, "to", "", "the `end`: a serial, or a time as 2026-03-31 or 2026-03-31T09:00:00Z")
	})
	if !ok {
		return status
	}
	until := folder.Until{Serial: math.MaxUint64}
	serial, err := strconv.ParseUint(end, 10, 64)
	if err == nil {
		until.Serial = serial
	} else if until.Time, err = timeOf(end); err != nil || end == "" {
		fmt.Fprintln(faults, "review-front restore: --to is a serial, or a time as 2026-03-31 or 2026-03-31T09:00:00Z")
		return 2
	}
	copied, err := folder.Copy(journal, out[0], until, false)
	if err != nil {
		return failed("restore", faults, err)
	}
	tellCopy(to, out[0], copied)
	if until.Serial != math.MaxUint64 && until.Serial > copied.Ends {
		const beyond = "review-front restore: %d is beyond the end: the journals end at serial %d\n"
		fmt.Fprintf(faults, beyond, until.Serial, copied.Ends)
	}
	if !until.Time.IsZero() && until.Time.After(time.Now()) {
		fmt.Fprintln(faults, "review-front restore: that time is still to come: all edits so far are there")
	}
	return 0
}
