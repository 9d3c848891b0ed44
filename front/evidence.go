package main

import (
	"bufio"
	"errors"
	"flag"
	"fmt"
	"io"
	"os"
	"strings"

	"review-front/campaigns"
	"review-front/folder"
	"review-front/heads"
	"review-front/jetstream"
)

// mostEvidence is how long a line of evidence is at most: a record of the journal, or an act and its cells.
const mostEvidence = 1 << 28

// isOfEvidence says whether words ask to look at evidence of a campaign, and not at a folder.
func isOfEvidence(words []string) bool {
	for _, word := range words {
		if name, _, _ := strings.Cut(strings.TrimLeft(word, "-"), "="); strings.HasPrefix(word, "-") && name == "evidence" {
			return true
		}
	}
	return false
}

// verifyEvidence sees that evidence of a campaign is what the journal says of which heads are known, without the
// journal.
func verifyEvidence(words []string, to, faults io.Writer) int {
	var key string
	var files list
	var stream jetstream.Options
	set := flag.NewFlagSet("review-front verify", flag.ContinueOnError)
	set.SetOutput(faults)
	name := set.String("evidence", "", "the `file` of evidence of a campaign")
	set.StringVar(&key, "key", "", "the `file` of the public key by which heads have to be signed")
	set.Var(&files, "head", "a `file` of heads that were kept elsewhere, or a stream as --heads-to has it; may stand "+
		"several times")
	set.StringVar(&stream.Credentials, "log-credentials", "", "a `file` by which its servers know who asks")
	set.StringVar(&stream.Authority, "log-authority", "", "a `file` with certificates that sign those of its servers")
	if err := set.Parse(words); errors.Is(err, flag.ErrHelp) {
		return 0
	} else if err != nil || len(set.Args()) > 0 || *name == "" {
		fmt.Fprintln(faults, "review-front verify: --evidence FILE stands with --key FILE and --head FILE alone")
		return 2
	}
	given, err := readOutside(key, files, stream)
	if err != nil {
		return failed("verify", faults, err)
	}
	checked, err := readEvidence(*name)
	if err == nil {
		err = given.covers(checked)
	}
	if err != nil {
		fmt.Fprintf(to, "%s isn't evidence: %v\n", *name, err)
		return 1
	}
	fmt.Fprintf(to, "the campaign %s is as %d records of the journal say, up to serial %d\n", checked.Head.Campaign,
		checked.Records, checked.Head.Until)
	return 0
}

// readEvidence reads evidence, and sees that it is what its records say.
func readEvidence(name string) (*campaigns.Checking, error) {
	file, err := os.Open(name)
	if err != nil {
		return nil, err
	}
	defer file.Close()
	lines := bufio.NewScanner(file)
	lines.Buffer(nil, mostEvidence)
	if !lines.Scan() {
		return nil, errors.New("it is empty")
	}
	checked, err := campaigns.Check(lines.Bytes())
	for number := 2; err == nil && lines.Scan(); number++ {
		if err = checked.Line(lines.Bytes()); err != nil {
			err = fmt.Errorf("line %d: %w", number, err)
		}
	}
	if err == nil {
		err = lines.Err()
	}
	if err == nil {
		err = checked.End()
	}
	return checked, err
}

// covers sees that a head that is known says what the records of evidence are: one from outside of its last record or
// one behind it, or that of the file where a key signed it.
func (g *given) covers(checked *campaigns.Checking) error {
	some, err := heads.Read(checked.Journal)
	if err != nil || len(some) != 1 {
		return errors.New("it doesn't end with the head of the journal: it isn't whole")
	}
	if g.key == nil && len(g.outside) == 0 {
		return errors.New("neither --key nor --head is given: whoever made it may have made its records, too")
	}
	covered := false
	known := g.outside
	if g.key != nil {
		known = append(known, some[0])
	}
	for _, head := range known {
		if g.key != nil {
			if err := head.Signed(g.key); err != nil {
				return fmt.Errorf("the head of serial %d: %w", head.Serial, err)
			}
		}
		chain, there := checked.Chains[head.Serial]
		if there && folder.Chain(chain) != head.Chain {
			return fmt.Errorf("the head of serial %d says otherwise: a record up to it was changed, taken away or brought in",
				head.Serial)
		}
		covered = covered || there && head.Serial >= checked.Head.Until
	}
	if !covered {
		return fmt.Errorf("no head that is given is of serial %d or behind it, and of the records", checked.Head.Until)
	}
	return nil
}
