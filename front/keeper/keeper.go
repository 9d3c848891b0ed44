// Package keeper owns the program: it alone sends it lines, matches replies by their order, journals what was
// accepted before a reply leaves, and brings a new program to the state of the journal when one ends.
package keeper

import (
	"context"
	"errors"
	"io"
	"sync/atomic"
	"time"

	"review-front/campaigns"
	"review-front/folder"
	"review-front/keys"
	"review-front/ladder"
	"review-front/line"
	"review-front/logs"
	"review-front/marks"
	"review-front/notices"
	"review-front/program"
	"review-front/provision"
	"review-front/replicated"
	"review-front/scim"
	"review-front/sessions"
	"review-front/spool"
)

// Unavailable says why a line has no reply of the program.
type Unavailable struct {
	Why string
	// After is after how long it may be tried again.
	After time.Duration
}

func (u *Unavailable) Error() string { return u.Why }

// The reasons why a line has no reply.
var (
	ErrEnded    = &Unavailable{Why: "the program ended before it answered; an edit may have been lost", After: time.Second}
	ErrAsked    = &Unavailable{Why: "the program ended before it answered; ask again", After: time.Second}
	ErrJournal  = &Unavailable{Why: "the edit can't be kept: the journal can't be written", After: 5 * time.Second}
	ErrAfter    = &Unavailable{Why: "an earlier edit couldn't be kept; the program is started anew", After: time.Second}
	ErrNotReady = &Unavailable{Why: "the program hasn't its state yet", After: time.Second}
	ErrBusy     = &Unavailable{Why: "too many lines are waiting", After: time.Second}
	ErrMark     = &Unavailable{Why: "the mark can't be kept", After: 5 * time.Second}
	ErrStopping = &Unavailable{Why: "the front is stopping", After: 5 * time.Second}
	ErrSpare    = &Unavailable{Why: "there is no spare program yet on which an edit can be tried", After: time.Second}
	ErrStream   = &Unavailable{Why: "the edit can't be appended: the stream can't be reached", After: time.Second}
	ErrUnled    = &Unavailable{Why: "the edit can't be appended: no server leads the stream", After: time.Second}
	ErrLacks    = &Unavailable{Why: "the edit can't be appended: who leads the stream lacks edits", After: time.Second}
	ErrBehind   = &Unavailable{Why: "there aren't so many edits", After: time.Second}
)

// Meter is told what happens.
type Meter interface {
	Committed(edits int, took time.Duration)
	JournalFailed()
	Restarted(why string)
	Built(edits uint64, took time.Duration)
	Snapshot(kept bool, took time.Duration)
}

// Options is what a keeper works with.
type Options struct {
	Command       program.Command
	Folder        *folder.Folder
	Log           *logs.Log
	Meter         Meter
	Queue         int                   // how many lines wait at most
	Patience      time.Duration         // how long a line waits for room among them
	SnapshotEvery uint64                // a snapshot is made after so many edits; 0: not by their number
	ReplayTime    time.Duration         // a snapshot is made when the edits behind took so long; 0: not by their time
	Keep          time.Duration         // how long old journals are kept; 0: for ever
	KeepHistory   time.Duration         // how long it is kept what edits changed; 0: for ever; less: not at all
	Reads         uint64                // the program is exchanged before it has looked at its input so often
	ReplyTime     time.Duration         // how long a reply may take before the program is exchanged; 0: for ever
	EndingTime    time.Duration         // how long the last snapshot may take, and what still has no reply then
	Edited        func([]folder.Entry)  // is told edits that are on disk, in their order; may be nil
	Askers        int                   // how many programs beside the table's answer requests
	TryTime       time.Duration         // how long an edit may take in a spare program; 0: there is none
	Spool         *spool.Spool          // where long replies wait until they are read
	Kept          ladder.Bounds         // how much of what changed can be asked
	MostSessions  int                   // how many sessions and marks clients have at most
	Stream        replicated.Log        // through which edits go that several fronts make; nil: this front alone has them
	Others        []Other               // fronts of the same stream
	KeepDaily     int                   // of how many last days a snapshot is kept
	Past          int                   // how many programs of earlier states there are at most
	Heads         Heads                 // makes heads of the journal's chain; may be nil
	Announce      func(campaigns.Event) // is told of campaigns that this front opened, reminded of and ended; may be nil
	CheckEvery    uint64                // after so many edits of a stream fronts compare their states; 0: never
	Provision     *provision.Mapping    // which names and rows users of SCIM have; nil: none
	AtMost        Bound                 // how many people may go by SCIM within a while
}

// Heads makes the head of the chain of the journal behind an edit, and is told why.
type Heads interface {
	Make(serial uint64, chain folder.Chain, why string)
}

// Other is another front of the same stream.
type Other interface {
	// Snapshot is the file of its newest snapshot, Keys what it remembers of bodies with keys, and Campaigns what it knows
	// of campaigns.
	Snapshot(ctx context.Context) (io.ReadCloser, error)
	Keys(ctx context.Context) (io.ReadCloser, error)
	Campaigns(ctx context.Context) (io.ReadCloser, error)
}

// Call is a line on its way.
type Call struct {
	Line []byte
	By   string // who sent it
	// Remember, if there is one, is which line of a body with a key this is: its reply is remembered.
	Remember *keys.Line
	// Known, if there is one, is how many edits there are to be before this one.
	Known *uint64
	kind  line.Kind
	// session is whose mark this is, or whose notices these are.
	session *sessions.Session
	// since is from which serial on changes are asked, if asks says so; unknown that the program has none of it.
	since   uint64
	asks    bool
	unknown bool
	own     bool // it is the front's own, whose reply isn't kept in a file
	// settle, if there is one, sees the reply when it is handed out, in the order of replies, and may change it.
	settle  func(*Reply)
	context context.Context
	reply   chan Reply
	behind  []*Call // lines that are sent at once behind this one, with nothing between
	run     bool    // whether it is one of several such lines
	ended   int     // how many askers ended over it
	group   *group  // the edits that are made with this one, or not at all
	tried   []byte  // what a spare program answered to it
	part    *Part   // why it isn't made, with others with which it was to be
	// differs, if a spare program was told it that more are told, says whether that has another state than the
	// table's.
	differs *atomic.Bool
	turn    chan struct{} // of a long reply, what the next one waits for
	left    atomic.Bool   // nobody waits for the reply any more
	// sequence, of an edit that a stream brought, is its place there, at the time of which it was appended, and fed is
	// closed once it stands among the lines for the program.
	sequence uint64
	at       time.Time
	fed      chan struct{}
	sent     bool         // it was sent to the stream, of a body with a key
	doubted  uint64       // where it stands if it is appended, of which nobody is sure; 0: that is no question
	answer   atomic.Int32 // whether its client has an answer
	// act, if there is one, is a record of a campaign or of SCIM, which the program isn't told.
	act *act
	// to, if there is one, takes the reply to what is asked for an act, as it comes, and heard is told that it did.
	to    io.Writer
	heard func(error)
}

// Keeper owns the program.
type Keeper struct {
	Options
	Sessions *sessions.Table
	Notices  *notices.Hub
	Keys     *keys.Table
	Marks    *marks.Book
	// Campaigns has the reviews of access that the journal has.
	Campaigns *campaigns.Table
	// Scim has the users and groups that the journal has.
	Scim     *scim.Table
	ladder   *ladder.Ladder
	checking chan struct{} // holds something while a document is checked

	provisioning *provisioning
	streamed     *streamed // nil without a stream
	askers       *askers
	edits        *edits
	spare        *spare
	recorder     *recorder
	pasts        *pasts
	queue        chan *Call
	edited       chan struct{}
	ready        *readiness
	serving      atomic.Pointer[watched] // the program to which lines are sent
	serial       atomic.Uint64
	lastEdit     atomic.Uint64 // that of the last edit; behind it there may be records that are none
	reached      *progress     // says that it has grown
	snapshot     atomic.Uint64 // the serial of the newest snapshot
	tried        atomic.Uint64 // the serial at which one was tried last
	day          atomic.Int64  // the day on which that was
	took         atomic.Int64  // how long the edits since then took, in nanoseconds
	asked        chan struct{} // a snapshot is wanted
	long         chan struct{} // holds something while a long reply is due
	held         []*Call       // lines that were taken and not sent; the next program has them first
	version      string
	shifted      uint64                 // added to the count of evaluations, since a planned change can't be seen
	repaired     atomic.Int64           // when repair of the journal was tried last, in nanoseconds
	unkept       atomic.Pointer[string] // why edits can't be kept; nil where they can be
}

// New makes a keeper. Nothing is started before Open.
func New(options Options) *Keeper {
	k := &Keeper{
		Options: options, Sessions: sessions.NewTable(options.MostSessions), Notices: notices.NewHub(options.Kept.Recent),
		Keys: keys.New(options.Folder), Marks: marks.New(options.Folder), ladder: ladder.New(options.Kept),
		Campaigns: campaigns.NewTable(), Scim: scim.NewTable(frontName()), checking: make(chan struct{}, 1),
		ready: newReadiness(), queue: make(chan *Call, options.Queue),
		edited: make(chan struct{}, 1), asked: make(chan struct{}, 1), reached: &progress{}, long: make(chan struct{}, 1),
	}
	k.askers, k.edits, k.spare = newAskers(k, options.Askers), newEdits(), newSpare(k)
	k.streamed, k.recorder = newStreamed(k, options.Stream), newRecorder(k)
	k.pasts = newPasts(k, options.Past)
	k.provisioning = newProvisioning(k)
	if options.Folder != nil { // tests of what never opens it have none
		options.Folder.KeepDaily(options.KeepDaily)
	}
	return k
}

// Ready says whether the program has the state of the journal, and answers or is at work.
func (k *Keeper) Ready() bool {
	now := k.serving.Load()
	return k.ready.is() && now != nil && !now.stuck.Load()
}

// Await waits a while until the program answers.
func (k *Keeper) Await(ctx context.Context) error {
	if k.ready.is() {
		return nil
	}
	timer := time.NewTimer(k.Patience)
	defer timer.Stop()
	select {
	case <-k.ready.wait():
		return nil
	case <-timer.C:
		return ErrNotReady
	case <-ctx.Done():
		return ctx.Err()
	}
}

// has says whether so many edits are on disk; of a stream, whether all up to that sequence are applied.
func (k *Keeper) has(serial uint64) bool {
	return k.serial.Load() >= serial || k.streamed != nil && k.streamed.applied.Load() >= serial
}

// Reach waits a while until so many edits are on disk.
func (k *Keeper) Reach(ctx context.Context, serial uint64) error {
	if k.has(serial) {
		return nil
	}
	timer := time.NewTimer(k.Patience)
	defer timer.Stop()
	for {
		grown := k.reached.next()
		if k.has(serial) {
			return nil
		}
		select {
		case <-grown:
		case <-timer.C:
			return ErrBehind
		case <-ctx.Done():
			return ctx.Err()
		}
	}
}

// Serial is how many edits were accepted so far, those of all programs together.
func (k *Keeper) Serial() uint64 { return k.serial.Load() }

// Version is what the program says of its version.
func (k *Keeper) Version() string { return k.version }

// Waiting is how many lines wait.
func (k *Keeper) Waiting() int { return len(k.queue) }

// Submit puts a call on its way. Its reply comes on the channel, whatever happens; an error says that there is no
// way. The call's line isn't sent any more once the context is done.
func (k *Keeper) Submit(ctx context.Context, call *Call) (<-chan Reply, error) {
	if call.kind == line.Edit && k.streamed != nil {
		return k.streamed.submit(ctx, call)
	}
	if call.kind == line.Edit && call.act == nil {
		return k.submitEdit(ctx, call)
	}
	if err := k.turn(ctx, call); err != nil {
		call.reply = make(chan Reply, 1)
		call.finish(Reply{Err: err})
		return nil, err
	}
	return k.submit(ctx, k.queue, call)
}

// submit puts a call among those that wait for a program.
func (k *Keeper) submit(ctx context.Context, queue chan<- *Call, call *Call) (<-chan Reply, error) {
	call.context = ctx
	call.reply = make(chan Reply, 1)
	select {
	case queue <- call:
		return call.reply, nil
	default:
	}
	timer := time.NewTimer(k.Patience)
	defer timer.Stop()
	select {
	case queue <- call:
		return call.reply, nil
	case <-timer.C:
		call.end(ErrBusy)
		return nil, ErrBusy
	case <-ctx.Done():
		call.end(ctx.Err())
		return nil, ctx.Err()
	}
}

// Ask submits a line that needs no session and whose reply is short, and waits for it.
func (k *Keeper) Ask(ctx context.Context, l []byte) Reply {
	return k.Send(ctx, &Call{Line: l})
}

// Report submits a line that needs no session and whose reply may be long, and waits for it.
func (k *Keeper) Report(ctx context.Context, l []byte) Reply {
	return k.Send(ctx, question(l))
}

// Send submits a call, and waits for its reply.
func (k *Keeper) Send(ctx context.Context, call *Call) Reply {
	_, err := k.Submit(ctx, call)
	return call.wait(ctx, err)
}

// wait waits for the reply, if the call is on its way.
func (c *Call) wait(ctx context.Context, err error) Reply {
	if err != nil {
		return Reply{Err: err}
	}
	select {
	case reply := <-c.reply:
		return reply
	case <-ctx.Done():
		c.Leave()
		return Reply{Err: ctx.Err()}
	}
}

// Listen begins to tell somebody what edits change.
func (k *Keeper) Listen() *notices.Listener {
	defer k.changed()
	return k.Notices.Listen()
}

// Return begins to tell somebody what edits change who has heard all up to a serial.
func (k *Keeper) Return(heard uint64) *notices.Listener {
	defer k.changed()
	return k.Notices.Return(heard)
}

// pace is how long the reply to a line may take.
type pace int

const (
	timed   pace = iota // its time
	light               // hardly any
	lasting             // as long as the program moves: that to an edit, or one as long as the table or what changed
)

func (c *Call) pace() pace {
	switch c.kind {
	case line.Edit, line.Report, line.Notices, line.Changes:
		return lasting
	case line.Mark, line.Light:
		return light
	}
	return timed
}

// lost is what is told of a line to which the program, which ended, gave no reply.
func (c *Call) lost() error {
	if c.kind == line.Edit {
		return ErrEnded
	}
	return ErrAsked
}

// end tells why a line isn't sent, and those behind it.
func (c *Call) end(why error) {
	if c.sequence != 0 {
		why = ErrAppended
	}
	c.finish(Reply{Err: why})
	for _, next := range c.behind {
		next.finish(Reply{Err: why})
	}
}

// working asks what takes no time.
var working = []byte(`{"do":"work"}`)

// errDamage says that there is no state to serve.
var errDamage = errors.New("the state can't be built from the journal")
