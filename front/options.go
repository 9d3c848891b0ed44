package main

import (
	"errors"
	"flag"
	"fmt"
	"io"
	"strings"
	"time"

	"review-front/campaigns"
	"review-front/jetstream"
	"review-front/limits"
)

// options is what the words of the command line say.
type options struct {
	program          string
	attributeModules int
	policyModules    int
	moduleNames      string
	called           string
	limits           limits.Limits
	journal          string
	stream           jetstream.Options
	copied           string
	others           list
	othersToken      string
	oldest           string
	campaignCommand  string
	checkEvery       uint64
	listen           string
	admin            string
	certificate      string
	key              string
	clients          string
	hosts            list
	authzen          string
	check            string
	scim             string
	scimAtMost       string
	scimWithin       time.Duration
	decisions        string
	decisionsSize    int64
	byHeader         string
	trusted          list
	keep             time.Duration
	keepHistory      time.Duration
	keepDaily        int
	past             int
	signKey          string
	headsTo          list
	snapshotEvery    uint64
	replayTime       time.Duration
	reads            uint64
	queue            int
	spool            string
	spoolBytes       int64
	patience         time.Duration
	connections      int
	each             int
	sessionIdle      time.Duration
	sessions         int
	keepChanges      uint64
	bodyTime         time.Duration
	streamIdle       time.Duration
	writeTime        time.Duration
	replyTime        time.Duration
	access           string
	issuer           string
	issuerKeys       string
	audience         string
	tokenTypes       list
	withoutTLS       bool
	rights           string
	askers           int
	tryTime          time.Duration
	dryTime          time.Duration
	lame             time.Duration
	drain            time.Duration
}

// list is what an option says that may stand several times.
type list []string

func (l *list) String() string { return strings.Join(*l, " ") }

// Set takes one more.
func (l *list) Set(one string) error {
	if one == "" {
		return errors.New("it is empty")
	}
	*l = append(*l, one)
	return nil
}

const usage = `Serves the program review to many clients over HTTP, and keeps what they edit.

Usage: review-front --program PROGRAM --journal FOLDER [OPTION ..]
       review-front --program PROGRAM --log nats://.. --stream NAME [OPTION ..]
       review-front history --journal FOLDER [--since TIME] [--until TIME] [--by NAME]
       review-front verify --journal FOLDER [--key FILE] [--head FILE ..]
       review-front verify --evidence FILE [--key FILE] [--head FILE ..]
       review-front repair --journal FOLDER OUT
       review-front restore --journal FOLDER --to SERIAL|TIME OUT
       review-front undo --journal FOLDER SERIAL

`

// parse reads the words. Where there is nothing to serve it says so, and gives the exit status.
func parse(words []string, to io.Writer) (options, int, bool) {
	var o options
	set := flag.NewFlagSet("review-front", flag.ContinueOnError)
	set.SetOutput(to)
	set.Usage = func() {
		fmt.Fprint(to, usage)
		set.PrintDefaults()
	}
	o.name(set)
	if err := set.Parse(words); errors.Is(err, flag.ErrHelp) {
		return o, 0, false
	} else if err != nil {
		return o, 2, false
	}
	if what := o.wrong(set.Args()); what != "" {
		fmt.Fprintln(to, "review-front:", what)
		return o, 2, false
	}
	return o, 0, true
}

// name gives each option its words and what it is without them.
func (o *options) name(set *flag.FlagSet) {
	set.StringVar(&o.program, "program", "", "the `file` of the program review")
	set.IntVar(&o.attributeModules, "attribute-modules", 2, "how many modules of attributes the program has")
	set.StringVar(&o.moduleNames, "module-names", "", "the `names` of the modules of attributes, in their order and with "+
		"commas between, which /attributes and /explain tell too")
	set.StringVar(&o.called, "people-called", "", "the `attribute` of people that has the name by which each is called, "+
		"as displayName, which the desk shows")
	set.IntVar(&o.policyModules, "policy-modules", 2, "how many modules of policies the program has")
	o.limits.Name(set.IntVar)
	set.StringVar(&o.journal, "journal", "", "the `folder` of journals and snapshots, which is made if it isn't there")
	set.StringVar(&o.stream.Servers, "log", "", "in place of --journal: the `addresses` of servers of NATS, with commas "+
		"between, that keep the edits of several fronts in one order")
	set.StringVar(&o.stream.Stream, "stream", "", "the `name` of the stream of edits there, which is made if it isn't there")
	set.IntVar(&o.stream.Replicas, "stream-replicas", 1, "how many servers keep a stream that is made")
	set.StringVar(&o.stream.Credentials, "log-credentials", "", "a `file` by which those servers know the front")
	set.StringVar(&o.stream.Authority, "log-authority", "", "a `file` with certificates that sign those of these servers")
	set.StringVar(&o.copied, "copy", "", "with --log, the `folder` of this front's journals and snapshots; "+
		"else one that goes with the front")
	set.Var(&o.others, "snapshot-from", "with --log, the `address` of another front, as http://host:8080, whose newest "+
		"snapshot a new one begins with; may stand several times")
	set.Uint64Var(&o.checkEvery, "check-every", 10_000, "with --log, fronts compare their states after so many edits; 0: never")
	set.StringVar(&o.othersToken, "snapshot-token", "", "a `file` with the token by which those fronts know this one")
	set.StringVar(&o.listen, "listen", "127.0.0.1:8080", "the `address` at which clients are answered, or unix: and "+
		"the file of a socket")
	set.StringVar(&o.admin, "admin", "", "an `address` at which /healthz, /readyz and /metrics are answered too, without TLS, "+
		"and beside the connections of clients")
	set.StringVar(&o.certificate, "certificate", "", "a `file` with the front's certificate; with --key: TLS")
	set.StringVar(&o.key, "key", "", "a `file` with the key of the certificate")
	set.StringVar(&o.clients, "clients", "", "a `file` with certificates; only clients with one that these sign are answered")
	set.Var(&o.hosts, "host", "a `host` as which the front is asked, with a port or for each; may stand several times; "+
		"else localhost and the address that it listens at")
	set.StringVar(&o.authzen, "authzen", "", "a `file` that says what AuthZEN's types and properties are; with it AuthZEN's "+
		"paths are answered")
	set.StringVar(&o.check, "check", "", "a `file` that says how a proxy's request becomes one of XACML; with it proxies are "+
		"answered at /check")
	set.StringVar(&o.scim, "scim", "", "a `file` that says which names and rows users of SCIM have; with it SCIM's paths are "+
		"answered")
	set.StringVar(&o.scimAtMost, "scim-at-most", "", "how many of a hundred people may go by SCIM within --scim-within, as "+
		"`5%`, before provisioning is held; else as many as there are")
	set.DurationVar(&o.scimWithin, "scim-within", time.Hour, "the while within which --scim-at-most counts")
	set.StringVar(&o.decisions, "decisions", "", "a `folder` into which each decision is written, which is made if it isn't there")
	set.Int64Var(&o.decisionsSize, "decisions-size", 64<<20, "how many bytes a file of decisions has before another begins")
	set.StringVar(&o.byHeader, "by-header", "", "the `field` of a head that says who asks, if a server before the front sets it")
	set.Var(&o.trusted, "by-header-from", "the `name` in the certificate of a client whose --by-header is believed; "+
		"may stand several times; without --clients everybody's is")
	set.StringVar(&o.access, "access", "", "a `file` with those who may ask, and what; without it whoever reaches the front may all")
	set.StringVar(&o.issuer, "issuer", "", "the `name` of an issuer whose tokens are taken, as their claim iss has it")
	set.StringVar(&o.issuerKeys, "issuer-keys", "", "a `file` with its keys, as a set of JSON Web Keys")
	set.StringVar(&o.audience, "audience", "", "the `name` of those for whom its tokens are, as their claim aud has it")
	set.Var(&o.tokenTypes, "token-type", "a `type` that its tokens may have, as their field typ has it; may stand several "+
		"times; else JWT, at+jwt and none")
	set.StringVar(&o.rights, "rights", "", "a `file` with the lines of a state whose policies decide who may send which line")
	set.BoolVar(&o.withoutTLS, "without-tls", false, "answers without TLS also at addresses that other machines reach")
	set.DurationVar(&o.keep, "keep", 0, "how long journals are kept that no start needs; 0: for ever")
	set.DurationVar(&o.keepHistory, "keep-history", 0, "how long it is kept what each edit changed; 0: for ever; less: "+
		"not at all, and then no program stands beside the table's for it")
	set.IntVar(&o.keepDaily, "keep-daily", 0, "of how many last days a snapshot is made and kept, so that what was "+
		"so then is soon answered; 0: of none")
	set.IntVar(&o.past, "past", 2, "how many programs of earlier states there are at most, for questions with at")
	set.StringVar(&o.signKey, "sign-key", "", "a `file` with a key of Ed25519 that signs the heads of the journal")
	set.Var(&o.headsTo, "heads-to", "a `file` to which each head is added, behind | a command that is given it, or a "+
		"stream of servers of NATS, as nats://host:4222/heads; may stand several times")
	set.StringVar(&o.oldest, "oldest", "", "how old a sign-off may be that a campaign takes over "+
		"which doesn't say it, in "+
		"`days`, as 365d; else as old as it is")
	set.StringVar(&o.campaignCommand, "campaign-command", "",
		"a `command` that is given a line of JSON when a campaign is "+
			"opened, ends, or its reviewers are to be reminded")
	set.Uint64Var(&o.snapshotEvery, "snapshot-every", 10_000, "a snapshot is made after so many edits; 0: not by their number")
	set.DurationVar(&o.replayTime, "replay-time", 5*time.Second, "a snapshot is made when the edits behind the last took "+
		"so long, as a start would; 0: not by their time")
	set.Uint64Var(&o.reads, "reads", 4_000_000_000, "the program is exchanged before it read so often; it ends at 4294967295")
	set.IntVar(&o.queue, "queue", 4096, "how many lines wait for the program at most")
	set.StringVar(&o.spool, "spool", "", "the `folder` in which replies of more than 256 KiB wait until they are read; "+
		"else that of journals")
	set.Int64Var(&o.spoolBytes, "spool-bytes", 1<<30, "while so much waits there, no more such replies are asked for")
	set.DurationVar(&o.patience, "patience", 5*time.Second, "how long a line waits for room among them before it gets 503")
	set.IntVar(&o.connections, "connections", 1024, "how many connections are answered at a time; others wait")
	set.IntVar(&o.each, "connections-each", 0, "how many connections one address has at most, others of it are closed; "+
		"0: fifteen of sixteen of --connections, so that none has all")
	set.DurationVar(&o.sessionIdle, "session-idle", 10*time.Minute, "a session ends that nobody used for so long")
	set.IntVar(&o.sessions, "sessions", 100_000, "how many sessions and marks clients have at most")
	set.Uint64Var(&o.keepChanges, "keep-changes", 500_000, "how many changed answers and edits the program keeps at "+
		"most, for marks and for who comes back")
	set.DurationVar(&o.bodyTime, "body-time", 30*time.Second, "how long a body may take to come, for each 64 KiB of it")
	set.DurationVar(&o.streamIdle, "stream-idle", time.Hour, "how long a stream of lines may say nothing")
	set.DurationVar(&o.writeTime, "write-time", 30*time.Second, "how long a client may read nothing of what he is sent")
	set.DurationVar(&o.replyTime, "reply-time", 30*time.Second, "how long a line may take of a processor, or the "+
		"program stand still over it, as it may over an edit or a report alone, before another takes its place; 0: for ever")
	set.IntVar(&o.askers, "askers", 0, "how many programs beside the table's answer requests")
	set.DurationVar(&o.tryTime, "try-time", 0, "an edit is told first to a spare program of the same state, and refused "+
		"where it takes longer there; 0: there is none")
	set.DurationVar(&o.dryTime, "dry-time", time.Minute, "how long it may take to tell what lines would change")
	set.DurationVar(&o.lame, "lame", time.Second, "how long the front, told to end, answers on while /readyz says 503")
	set.DurationVar(&o.drain, "drain", 30*time.Second, "how long the front may take to end: behind --lame, half of it for "+
		"what is under way and half for a snapshot")
}

// wrong says what is wrong with the options, or nothing.
func (o options) wrong(rest []string) string {
	switch {
	case len(rest) > 0:
		return fmt.Sprintf("the word %q isn't known", rest[0])
	case o.program == "":
		return "--program is missing"
	case o.journal == "" && o.stream.Servers == "":
		return "--journal is missing"
	case (o.certificate == "") != (o.key == ""):
		return "--certificate and --key go together"
	case o.clients != "" && o.certificate == "":
		return "--clients needs --certificate and --key"
	case o.certificate == "" && !o.withoutTLS && !isNear(o.listen):
		return "--listen names an address that other machines reach: give --certificate and --key, or --without-tls"
	case o.rights != "" && o.access == "":
		return "--rights needs --access"
	case o.issuer != "" && (o.access == "" || o.issuerKeys == "" || o.audience == ""):
		return "--issuer needs --access, --issuer-keys and --audience"
	case o.issuer == "" && (o.issuerKeys != "" || o.audience != "" || len(o.tokenTypes) > 0):
		return "--issuer-keys, --audience and --token-type need --issuer"
	case len(o.trusted) > 0 && (o.clients == "" || o.byHeader == ""):
		return "--by-header-from needs --by-header and --clients"
	case o.attributeModules < 1 || o.attributeModules > 4 || o.policyModules < 1 || o.policyModules > 4:
		return "there are 1 to 4 modules of each sort"
	case len(o.modules()) > o.attributeModules || wrongNames(o.modules()):
		return "--module-names has a name for each module of attributes at most, none of them empty or twice"
	case o.limits.Wrong() != "":
		return o.limits.Wrong()
	case o.scim == "" && o.scimAtMost != "":
		return "--scim-at-most needs --scim"
	case o.scimWithin < time.Second:
		return "--scim-within is at least 1s"
	case o.queue < 1 || o.connections < 1 || o.each < 0:
		return "--queue and --connections are at least 1, and --connections-each at least 0"
	case o.decisionsSize < 1:
		return "--decisions-size is at least 1"
	case o.askers < 0 || o.tryTime < 0 || o.dryTime <= 0:
		return "--askers and --try-time are at least 0, and --dry-time is more"
	case o.sessions < 1:
		return "--sessions is at least 1"
	case o.spoolBytes < 1<<20:
		return "--spool-bytes is at least 1048576"
	case !campaigns.IsOldest(o.oldest):
		return "--oldest is a number of days, as 365d"
	case o.keepDaily < 0 || o.past < 1:
		return "--keep-daily is at least 0, and --past at least 1"
	case o.replayTime < 0:
		return "--replay-time is at least 0"
	case o.replyTime < 0 || o.lame < 0 || o.drain <= o.lame:
		return "--reply-time and --lame are at least 0, and --drain is more than --lame"
	}
	return o.wrongLog()
}

// wrongLog says what is wrong with those of a log, or nothing.
func (o options) wrongLog() string {
	switch {
	case o.wrongHeads() != "":
		return o.wrongHeads()
	case o.stream.Servers == "" && (o.stream.Stream != "" || o.copied != "" || len(o.others) > 0):
		return "--stream, --copy and --snapshot-from need --log"
	case o.stream.Servers == "" && !o.headsToStream() && (o.stream.Credentials != "" || o.stream.Authority != ""):
		return "--log-credentials and --log-authority need --log, or a stream in --heads-to"
	case o.stream.Servers == "":
		return ""
	case o.journal != "":
		return "--log stands in place of --journal"
	case o.stream.Stream == "" || strings.ContainsAny(o.stream.Stream, " \t\r\n.*>/\\"):
		return "--log needs --stream, a name without blanks and . * > / \\"
	case o.stream.Replicas < 1 || o.stream.Replicas > 5:
		return "--stream-replicas is from 1 to 5"
	}
	return ""
}

// modules are the names of the modules of attributes.
func (o options) modules() []string {
	if o.moduleNames == "" {
		return nil
	}
	return strings.Split(o.moduleNames, ",")
}

// wrongNames says whether a name is empty, or stands twice.
func wrongNames(names []string) bool {
	seen := map[string]bool{"": true}
	for _, name := range names {
		if seen[name] {
			return true
		}
		seen[name] = true
	}
	return false
}
