package web

import (
	"bufio"
	"bytes"
	"encoding/csv"
	"encoding/hex"
	"encoding/json"
	"net/http"
	"strconv"
	"strings"
	"time"

	"review-front/campaigns"
	"review-front/folder"
)

const (
	csvType = "text/csv"
	// evidenceKeys has the keys of a query of evidence.
	formKey = "form"
)

var evidenceKeys = []key{{formKey, textOrNot}}

// evidence gives what is so of a campaign, with the records of the journal by which it can be checked.
func (s *Server) evidence(w *answered, r *http.Request, keys map[string]string) {
	q, err := queryOf(r.URL.RawQuery, evidenceKeys...)
	form := ""
	if err == nil {
		form, err = q.one(formKey)
	}
	if err == nil && form != "" && form != "csv" && form != "jsonl" {
		err = &badValue{key: formKey, is: "jsonl or csv"}
	}
	if err != nil {
		bad(err.Error()).send(w)
		return
	}
	name := keys["campaign"]
	if !s.mayAll(w, r, commanded("changes")) || !s.mayCampaign(w, r, "campaign.evidence", name) || !s.follow(w, r) {
		return
	}
	told, err := s.Keeper.Campaigns.Evidence(name)
	if err != nil {
		problemFor(err).send(w)
		return
	}
	told.Head.Made = time.Now().UTC()
	if form == "csv" {
		sendCSV(w, told)
		return
	}
	s.sendEvidence(w, told)
}

// sendEvidence writes the evidence as lines: its head, the records of the journal, acts, items, falls, and the
// journal's head.
func (s *Server) sendEvidence(w *answered, told *campaigns.Evidence) {
	head, err := s.Head()
	if err == nil {
		err = s.before(&told.Head)
	}
	if err != nil {
		problemFor(err).send(w)
		return
	}
	w.Header().Set("Content-Type", linesType)
	out := bufio.NewWriterSize(w, 1<<16)
	defer out.Flush()
	writing := json.NewEncoder(out)
	writing.SetEscapeHTML(false)
	_ = writing.Encode(told.Head)
	last := serialOfHead(head)
	err = s.Keeper.Folder.Each(told.Head.Since, func(entry folder.Entry, _ folder.Place) error {
		if entry.Serial > last {
			return errEnough
		}
		_, err := out.Write(append(append([]byte(`{"record":`), entry.Raw()...), "}\n"...))
		return err
	})
	if err != nil && err != errEnough {
		s.Log.Error("evidence of a campaign breaks off", "campaign", told.Head.Campaign, "error", err)
		return // without the head at its end it isn't whole
	}
	for _, one := range told.Acts {
		_ = writing.Encode(map[string]any{"act": one})
	}
	for _, one := range told.Items {
		_ = writing.Encode(map[string]any{"item": one})
	}
	for _, one := range told.Falls {
		_ = writing.Encode(map[string]any{"fall": one})
	}
	// Who has gone isn't told.
	_, _ = out.Write(append(append([]byte(`{"head":`), bytes.TrimSpace(head)...), "}\n"...))
}

// serialOfHead is the serial of a head.
func serialOfHead(head []byte) uint64 {
	var read struct{ Serial uint64 }
	_ = json.Unmarshal(head, &read)
	return read.Serial
}

// before finds what the chain was before the first record of evidence.
func (s *Server) before(head *campaigns.EvidenceHead) error {
	held := s.Keeper.Folder
	chains, err := folder.ReadChains(held.Path(""), map[uint64]bool{head.Since: true})
	if err != nil {
		return err
	}
	chain, there := chains.At[head.Since]
	if !there && head.Since > 0 {
		return &campaigns.Refused{
			Status: http.StatusGone, Title: "not known any more", Detail: "the journals begin behind what was signed",
		}
	}
	head.Before, head.Stream = hex.EncodeToString(chain[:]), held.Stream()
	return nil
}

// evidenceColumns are the columns of evidence as a table.
var evidenceColumns = []string{
	"item", "person", "action", "resource", "reviewer", "state", "decision", "why", "signed_as", "signed_by", "signed_at",
	"signed_serial", "digest", "because", "taken_from", "ended_by", "ended_at", "ended_serial",
}

// sendCSV writes the evidence as a table, a row for each item.
func sendCSV(w *answered, told *campaigns.Evidence) {
	w.Header().Set("Content-Type", csvType)
	out := csv.NewWriter(w)
	defer out.Flush()
	_ = out.Write(evidenceColumns)
	for _, one := range told.Items {
		_ = out.Write(rowOf(one))
	}
}

// rowOf is an item as a row.
func rowOf(one campaigns.EvidenceItem) []string {
	cell := one.Cell.Cell()
	answer := one.Opened
	if one.Seen != nil {
		answer = one.Seen
	}
	row := []string{
		strconv.Itoa(int(one.Item)),
		campaigns.Plain(cell.Person), campaigns.Plain(cell.Action), campaigns.Plain(cell.Resource),
		one.Reviewer, one.State, strings.Trim(string(answer.Decision), `"`), string(answer.Why),
	}
	if signed := one.Signed; signed != nil {
		row = append(row, signed.As, signed.By, signed.Time.Format(time.RFC3339), strconv.FormatUint(signed.Serial, 10),
			signed.Digest, signed.Why, signed.From)
	} else {
		row = append(row, "", "", "", "", "", "", "")
	}
	if by := one.By; by != nil {
		row = append(row, by.By, by.Time.Format(time.RFC3339), strconv.FormatUint(by.Serial, 10))
	} else {
		row = append(row, "", "", "")
	}
	for i, text := range row {
		row[i] = harmless(text)
	}
	return row
}

// harmless is a text that no program of tables takes for a formula.
func harmless(text string) string {
	if text != "" && strings.ContainsRune("=+-@\t\r", rune(text[0])) {
		return "'" + text
	}
	return text
}
