// Package source brings people and things from where a company keeps them to a front: the command review-source.
package source

import (
	"context"
	"errors"
	"flag"
	"fmt"
	"io"
	"time"

	"review-front/source/form"
)

// What the command ends with, besides 0.
const (
	failed  = 1 // something can't be read, or isn't taken
	misused = 2 // the words aren't understood
	tooMuch = 4 // more would be dropped or lost than --at-most says; nothing was changed
)

const usage = `Brings people and things from where a company keeps them to a front.

Usage: review-source plan [OPTION ..] FILE|FOLDER ..
       review-source run [OPTION ..] FILE|FOLDER ..

plan tells what would be added, set and dropped, and who would gain and lose what; run does it.
Each FILE says where from, and how a record becomes a name and rows; of a FOLDER those that end with .json.

`

// options is what the words of the command line say.
type options struct {
	front     string
	authority string
	byHeader  string
	atMost    share
	untold    bool
	every     time.Duration
	metrics   string
	patience  time.Duration
	timeout   time.Duration
	files     []string
}

// name gives each option its words and what it is without them.
func (o *options) name(set *flag.FlagSet) {
	o.atMost = share{per: 100}
	set.StringVar(&o.front, "front", "http://127.0.0.1:8080",
		"the `address` of the front, or unix: and the file of a socket")
	set.StringVar(&o.authority, "authority", "", "a `file` with certificates that sign that of the front")
	set.StringVar(&o.byHeader, "by-header", "", "the `field` of a head in which the front is told the source's name, "+
		"as its option of this name has it")
	set.Var(&o.atMost, "at-most", "how many in a hundred, as `5%`, a source may drop of its names, and of all Permits "+
		"may be lost; what would be more changes nothing, and ends with status 4")
	set.BoolVar(&o.untold, "untold", false,
		"with --at-most, goes on where it can't be told how many Permits would be lost")
	set.DurationVar(&o.every, "every", 0, "does it again, each time after so `long`; 0: once")
	set.StringVar(&o.metrics, "metrics", "", "with --every, an `address` at which /metrics is answered")
	set.DurationVar(&o.patience, "patience", time.Minute,
		"how `long` the front is asked again that can't be reached, or is busy")
	set.DurationVar(&o.timeout, "timeout", 5*time.Minute,
		"how `long` a source may take to be read, and the front to answer")
}

// parse reads the words behind the command. Where there is nothing to do it says so, and gives the exit status.
func parse(command string, words []string, faults io.Writer) (options, int, bool) {
	var o options
	set := flag.NewFlagSet("review-source", flag.ContinueOnError)
	set.SetOutput(faults)
	set.Usage = func() {
		fmt.Fprint(faults, usage)
		set.PrintDefaults()
	}
	o.name(set)
	if command == "--help" || command == "-help" || command == "-h" {
		set.Usage()
		return o, 0, false
	}
	if command != "plan" && command != "run" {
		fmt.Fprintf(faults, "review-source: the command is plan or run, and not %q\n", command)
		return o, misused, false
	}
	if err := set.Parse(words); errors.Is(err, flag.ErrHelp) {
		return o, 0, false
	} else if err != nil {
		return o, misused, false
	}
	o.files = set.Args()
	if what := o.wrong(command); what != "" {
		fmt.Fprintln(faults, "review-source:", what)
		return o, misused, false
	}
	return o, 0, true
}

// wrong says what is wrong with the options, or nothing.
func (o options) wrong(command string) string {
	switch {
	case len(o.files) == 0:
		return "no file is named"
	case command == "plan" && o.every != 0:
		return "--every is for run"
	case o.every < 0 || o.timeout <= 0 || o.patience < 0:
		return "--every and --patience are at least 0, and --timeout is more"
	case o.metrics != "" && o.every == 0:
		return "--metrics needs --every"
	}
	return ""
}

// Run does what the words say, and gives the exit status.
func Run(ctx context.Context, words []string, to, faults io.Writer) int {
	command := ""
	if len(words) > 0 {
		command, words = words[0], words[1:]
	}
	o, status, ok := parse(command, words, faults)
	if !ok {
		return status
	}
	sources, err := form.Read(o.files...)
	if err != nil {
		fmt.Fprintln(faults, "review-source:", err)
		return failed
	}
	round := newRound(o, sources, to, faults)
	defer round.close()
	switch {
	case command == "plan":
		return round.plan(ctx)
	case o.every > 0:
		return round.often(ctx)
	}
	return round.run(ctx)
}
