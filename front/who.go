package main

import (
	"review-front/access"
	"review-front/logs"
	"review-front/rights"
	"review-front/web"
)

// who is what says who may what, if anything does.
type who struct {
	gate   *access.Gate
	rights *rights.Judge
}

// who reads it.
func (o options) who(log *logs.Log) (*who, error) {
	w := &who{}
	if o.access == "" {
		return w, nil
	}
	var err error
	w.gate, err = access.Open(access.Options{
		File: o.access, Issuer: o.issuer, Keys: o.issuerKeys, Audience: o.audience, Types: o.tokenTypes,
	})
	if err == nil {
		w.warn(log)
	}
	if err == nil && o.rights != "" {
		w.rights, err = rights.Open(o.command(log), o.rights, o.replyTime)
	}
	return w, err
}

// again reads it again, and has streams look then whether they may go on. Where it can't be read all of what was read
// before stays.
func (w *who) again(site *web.Server, log *logs.Log) {
	if w.gate == nil {
		return
	}
	take, err := w.gate.Read()
	if err == nil && w.rights != nil {
		err = w.rights.Read()
	}
	if err != nil {
		log.Error("who may what can't be read again, and what was read before stays", "error", err)
		return
	}
	take()
	site.ReadAgain()
	w.warn(log)
	log.Info("who may what was read again")
}

// warn tells what of it can't be meant.
func (w *who) warn(log *logs.Log) {
	for _, what := range w.gate.Unknowable() {
		log.Error("a line says nothing of who may what", "why", what)
	}
}

// close ends what decides.
func (w *who) close() {
	if w.rights != nil {
		w.rights.Close()
	}
}
