package main

import (
	"context"
	"crypto/tls"
	"errors"
	"fmt"
	"net"
	"net/http"
	"os"
	"time"

	"review-front/folder"
	"review-front/keeper"
	"review-front/ladder"
	"review-front/line"
	"review-front/logs"
	"review-front/measure"
	"review-front/program"
	"review-front/replicated"
	"review-front/spool"
	"review-front/web"
)

const (
	headTime  = 10 * time.Second
	idleTime  = 2 * time.Minute
	headBytes = 32 << 10
	returning = time.Minute // how long who listened may take to come back at most
	sendTime  = time.Second // how long the last heads may take to be sent
	askTime   = time.Second // how long the counts wait for the program
	// adminPlaces is how many connections there are at a time at the address of --admin.
	adminPlaces = 16
)

// serve serves until the context is done, or until there is no state to serve. Certificates are read again whenever
// `again` says so.
func serve(ctx context.Context, again <-chan os.Signal, o options, log *logs.Log) error {
	o, clear, err := o.placed()
	if err != nil {
		return err
	}
	defer clear()
	held, err := folder.Open(o.journal)
	if err != nil {
		return err
	}
	defer held.Close()
	edits, err := o.edits(ctx, log)
	if ctx.Err() != nil {
		return nil // it was told to end before the stream was reached
	}
	if err != nil {
		return err
	}
	if edits != nil {
		defer edits.Close()
	}
	kept := o.kept()
	if err := kept.Clear(); err != nil {
		return err
	}
	meter := measure.New()
	keeping := o.keeping(held, edits, kept, log, meter)
	if keeping.Provision, keeping.AtMost, err = o.provisioning(); err != nil {
		return err
	}
	signed, err := o.heads(held, log)
	if err != nil {
		return err
	}
	keeping.Heads = signed
	k := keeper.New(keeping)
	watch(meter, k)
	watchScim(meter, k)
	mapping, book, err := o.beside(log, meter)
	if err != nil {
		return err
	}
	defer book.Close()
	checked, err := o.checking()
	if err != nil {
		return err
	}
	who, err := o.who(log)
	if err != nil {
		return err
	}
	defer who.close()
	listener, secrets, err := listen(o, who)
	if err != nil {
		return err
	}
	site := web.New(web.Options{
		Keeper: k, Meter: meter, Log: log, Authzen: mapping, Check: checked, Decisions: book,
		Hosts:    web.NewHosts(o.hosts, o.listen, listener.Addr()),
		ByHeader: o.byHeader, Trusted: o.trusted,
		SessionIdle: o.sessionIdle, BodyTime: o.bodyTime, StreamIdle: o.streamIdle, WriteTime: o.writeTime,
		DryTime: o.dryTime, Access: who.gate, Rights: who.rights, Signed: secrets.signed(),
		Oldest: o.oldest, ModuleNames: o.modules(), Called: o.called,
	})
	site.Head = signed.Now
	k.Edited = site.Edited
	go secrets.follow(ctx, again, site, log)
	defer site.TellRefused(true)
	server := &http.Server{
		Handler: site, ConnContext: web.KeepConnection, ErrorLog: log.Standard(),
		ReadHeaderTimeout: headTime, ReadTimeout: o.bodyTime, IdleTimeout: idleTime, MaxHeaderBytes: headBytes,
		TLSNextProto: map[string]func(*http.Server, *tls.Conn, http.Handler){},
	}
	failed := make(chan error, 1)
	go func() { failed <- server.Serve(listener) }()
	defer server.Close()
	if o.admin != "" {
		admin, err := administer(o, site, log)
		if err != nil {
			return err
		}
		defer admin.Close()
	}
	go site.Sweep(ctx)
	log.Info("clients can connect", "address", listener.Addr().String())
	started, err := k.Start(ctx)
	if ctx.Err() != nil {
		return nil // it was told to end before the state stood
	}
	if err != nil {
		return err
	}
	tellReady(log)
	heading, ended := context.WithCancel(ctx)
	go signed.Run(heading)
	defer func() {
		ended()
		signed.Finish(sendTime)
	}()
	e := &ending{options: o, log: log, server: server, site: site, failed: failed}
	return e.until(ctx, started)
}

// administer answers who looks after the front, at an address of its own.
func administer(o options, site *web.Server, log *logs.Log) (*http.Server, error) {
	listener, err := net.Listen("tcp", o.admin)
	if err != nil {
		return nil, fmt.Errorf("the address of --admin: %w", err)
	}
	server := &http.Server{
		Handler: site.Admin(web.NewHosts(nil, o.admin, listener.Addr())), ErrorLog: log.Standard(),
		ReadTimeout: headTime, WriteTimeout: headTime, IdleTimeout: idleTime, MaxHeaderBytes: headBytes,
	}
	go func() {
		if err := server.Serve(web.Limit(listener, adminPlaces, 0)); !errors.Is(err, http.ErrServerClosed) {
			log.Error("nobody is answered at the address of --admin any more", "error", err)
		}
	}()
	log.Info("who looks after the front can connect", "admin", listener.Addr().String())
	return server, nil
}

// kept is where long replies wait.
func (o options) kept() *spool.Spool {
	if o.spool == "" {
		return spool.New(o.journal, o.spoolBytes)
	}
	return spool.New(o.spool, o.spoolBytes)
}

// returnTime is how long who listened may take to come back.
func (o options) returnTime() time.Duration {
	if o.sessionIdle < returning {
		return o.sessionIdle
	}
	return returning
}

// command is how each program is started.
func (o options) command(log *logs.Log) program.Command {
	return program.Command{
		Path: o.program, AttributeModules: o.attributeModules, PolicyModules: o.policyModules, Limits: o.limits,
		Faults: log.Lines(),
	}
}

// keeping is what the keeper of a folder works with.
func (o options) keeping(
	held *folder.Folder, edits replicated.Log, kept *spool.Spool, log *logs.Log, meter *measure.Meter,
) keeper.Options {
	return keeper.Options{
		Others: o.otherFronts(), CheckEvery: o.checkEvery,
		Command: o.command(log),
		Folder:  held, Stream: edits, Spool: kept, Log: log, Meter: meter, Queue: o.queue, Patience: o.patience,
		SnapshotEvery: o.snapshotEvery, ReplayTime: o.replayTime, Keep: o.keep, Reads: o.reads,
		Announce: o.announcing(log), KeepHistory: o.keepHistory, KeepDaily: o.keepDaily, Past: o.past,
		ReplyTime: o.replyTime, EndingTime: o.half(), Askers: o.askers, TryTime: o.tryTime,
		Kept:         ladder.Bounds{Changes: o.keepChanges, Took: o.replayTime / 2, Recent: o.returnTime()},
		MostSessions: o.sessions,
	}
}

// oneWhere is 1 where something is so, and else 0.
func oneWhere(is bool) float64 {
	if is {
		return 1
	}
	return 0
}

// watch adds what is looked up when somebody asks for the counts.
func watch(meter *measure.Meter, k *keeper.Keeper) {
	meter.Watch("serial", "How many edits were accepted so far.", func() float64 { return float64(k.Serial()) })
	meter.Watch("waiting_lines", "Lines that wait for the program.", func() float64 { return float64(k.Waiting()) })
	meter.Watch("sessions", "Sessions that clients have.", func() float64 { return float64(k.Sessions.Taken()) })
	meter.Watch("listeners", "Who listens to notices.", func() float64 { return float64(k.Notices.Count()) })
	meter.Watch("askers", "Programs beside the table's that answer requests.", func() float64 { return float64(k.Askers()) })
	meter.Watch("spool_bytes", "Bytes of replies that wait in files.", func() float64 { return float64(k.Spool.Used()) })
	meter.Watch("ready", "Whether lines are answered.", func() float64 { return oneWhere(k.Ready()) })
	meter.Watch("edits_taken", "Whether edits are taken, as far as is known.", func() float64 {
		return oneWhere(k.Health().Edits == "")
	})
	meter.Ask(func() (measure.State, bool) {
		if !k.Ready() {
			return measure.State{}, false
		}
		ctx, cancel := context.WithTimeout(context.Background(), askTime)
		defer cancel()
		work, counts := k.Ask(ctx, []byte(`{"do":"work"}`)), k.Ask(ctx, []byte(`{"do":"counts"}`))
		evaluations, ok := line.ReadEvaluations(work.Body)
		cells, err := countsOf(counts.Body)
		return measure.State{Evaluations: float64(evaluations), Cells: cells}, ok && err == nil
	})
}
