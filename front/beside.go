package main

import (
	"fmt"

	"review-front/authzen"
	"review-front/check"
	"review-front/decisions"
	"review-front/logs"
	"review-front/measure"
	"review-front/web"
)

// beside is what AuthZEN's types are, and where decisions are written down; nil for what wasn't asked for.
func (o options) beside(
	log *logs.Log, meter *measure.Meter,
) (mapping *authzen.Mapping, book *decisions.Book, err error) {
	if o.authzen != "" {
		if mapping, err = authzen.Open(o.authzen); err != nil {
			return nil, nil, err
		}
	}
	if o.decisions == "" {
		return mapping, nil, nil
	}
	if book, err = decisions.Open(o.decisions, o.decisionsSize, log); err != nil {
		return nil, nil, err
	}
	kept, lost := func() float64 { return float64(book.Kept()) }, func() float64 { return float64(book.Lost()) }
	meter.Watch("decisions_kept", "Decisions that were written down.", kept)
	meter.Watch("decisions_lost", "Decisions that couldn't be written down.", lost)
	return mapping, book, nil
}

// errVerified says that a file has tokens be verified of which nobody is the issuer.
const errVerified = "%s: its subject is named by a token, which needs --issuer"

// checking is how proxies ask, or nil where they don't.
func (o options) checking() (*check.File, error) {
	if o.check == "" {
		return nil, nil
	}
	file, err := check.Open(o.check)
	if err != nil {
		return nil, fmt.Errorf("how proxies ask: %w", err)
	}
	if file.Now().Verifies() && o.issuer == "" {
		return nil, fmt.Errorf(errVerified, o.check)
	}
	return file, nil
}

// checksAgain reads again how proxies ask. Where it can't be read, what was read before stays.
func (s *secrets) checksAgain(site *web.Server, log *logs.Log) {
	if site.Check == nil {
		return
	}
	if err := site.Check.Again(); err != nil {
		log.Error("how proxies ask can't be read again, and what was read before stays", "error", err)
		return
	}
	log.Info("how proxies ask was read again")
}
