package web

import (
	"bytes"
	"context"
	"encoding/json"
	"errors"
	"net/http"
	"strings"
	"time"

	"review-front/access"
	"review-front/campaigns"
	"review-front/line"
)

const (
	// mostGroups is how many groups of items one answer has at most, and groupsOr how many where nothing is said.
	mostGroups = 1000
	groupsOr   = 100
	// mostItems is how many items an act is of at most.
	mostItems = 10_000
	// refreshes is how often answers are asked again that edits changed while a list was made.
	refreshes = 3
)

// campaignRoutes are the paths of campaigns.
func (s *Server) campaignRoutes() []route {
	all := []route{
		{http.MethodGet, "/campaigns", s.campaigns},
		{http.MethodPost, "/campaigns", s.openCampaign},
		{http.MethodGet, "/campaigns/{campaign}", s.campaign},
		{http.MethodGet, "/campaigns/{campaign}/items", s.campaignItems},
		{http.MethodGet, "/campaigns/{campaign}/items/{item}", s.campaignItem},
		{http.MethodGet, "/campaigns/{campaign}/tasks", s.tasks},
		{http.MethodGet, "/campaigns/{campaign}/events", s.campaignEvents},
		{http.MethodGet, "/campaigns/{campaign}/evidence", s.evidence},
	}
	for _, do := range []string{campaigns.Keep, campaigns.Revoke, campaigns.Pass, campaigns.Undo, campaigns.Close} {
		path := "/campaigns/{campaign}/" + strings.TrimPrefix(do, "campaign.")
		all = append(all, route{http.MethodPost, path, s.acting(do)})
	}
	return all
}

// itemsKeys has the keys of a query of items.
var itemsKeys = []key{{"reviewer", textOrNot}, {"state", textList}, {"from", wholeOrNo}, {"count", wholeOrNo}}

// aboutCampaign is the line of a command of campaigns, as roles and policies see it.
func aboutCampaign(command, name string) []byte {
	return []byte(`{"do":` + quoted(command) + `,"name":` + quoted(name) + `}`)
}

// mayCampaign says whether who asks may do something with a campaign, and whether all stands that it rests on. Else it
// answers itself.
func (s *Server) mayCampaign(w *answered, r *http.Request, command, name string) bool {
	if !s.mayAll(w, r, aboutCampaign(command, name)) || !s.stands(w, r) {
		return false
	}
	if s.Keeper.History() == nil {
		problem{Title: "no campaigns", Status: http.StatusNotImplemented,
			Detail: "campaigns rest on what edits changed, of which nothing is kept with --keep-history below 0"}.send(w)
		return false
	}
	return true
}

// follow waits until it is known which sign-offs stand as of the last edit.
func (s *Server) follow(w *answered, r *http.Request) bool {
	serial := s.Keeper.Serial()
	if err := s.Keeper.Follow(r.Context(), serial); err != nil {
		problemFor(err).send(w)
		return false
	}
	tellSerial(w, serial)
	return true
}

// tellJSON answers with something as JSON. What the program wrote stays as it wrote it.
func tellJSON(w *answered, told any) {
	var to bytes.Buffer
	writing := json.NewEncoder(&to)
	writing.SetEscapeHTML(false)
	if err := writing.Encode(told); err != nil {
		problemFor(err).send(w)
		return
	}
	sendJSON(w, bytes.TrimSuffix(to.Bytes(), []byte("\n")))
}

// campaigns tells of all campaigns.
func (s *Server) campaigns(w *answered, r *http.Request, _ map[string]string) {
	if s.mayCampaign(w, r, "campaign.show", "") && s.follow(w, r) {
		tellJSON(w, map[string]any{"campaigns": s.Keeper.Campaigns.All()})
	}
}

// campaign tells of one campaign.
func (s *Server) campaign(w *answered, r *http.Request, keys map[string]string) {
	if !s.mayCampaign(w, r, "campaign.show", keys["campaign"]) || !s.follow(w, r) {
		return
	}
	told, err := s.Keeper.Campaigns.Progress(keys["campaign"])
	if err != nil {
		problemFor(err).send(w)
		return
	}
	tellJSON(w, told)
}

// openCampaign opens a campaign.
func (s *Server) openCampaign(w *answered, r *http.Request, _ map[string]string) {
	body, ok := s.taken(w, r)
	if !ok {
		return
	}
	d, err := campaigns.Define(body)
	if err != nil {
		bad(err.Error()).send(w)
		return
	}
	if d.After != "" && d.Oldest == "" {
		d.Oldest = s.Oldest
	}
	if s.mayCampaign(w, r, campaigns.Open, d.Name) {
		s.act(w, r, &campaigns.Record{Do: campaigns.Open, Campaign: d.Name, Definition: d})
	}
}

// asked is the body of an act.
type askedAct struct {
	Items  []uint32 `json:"items"`
	Digest string   `json:"digest"`
	Serial uint64   `json:"serial"` // as of which the items were told
	Why    string   `json:"why"`
	To     string   `json:"to"`
}

// record is the act as a record.
func (a askedAct) record(do, campaign string) *campaigns.Record {
	r := &campaigns.Record{Do: do, Campaign: campaign, Items: a.Items}
	switch do {
	case campaigns.Revoke:
		r.Digest, r.Why = a.Digest, a.Why
	case campaigns.Keep:
		r.Digest = a.Digest
	case campaigns.Pass:
		r.To = a.To
	case campaigns.Close:
		r.Items = nil
	}
	return r
}

// acting answers an act.
func (s *Server) acting(do string) func(*answered, *http.Request, map[string]string) {
	return func(w *answered, r *http.Request, keys map[string]string) {
		body, ok := s.taken(w, r)
		if !ok {
			return
		}
		var asked askedAct
		from := json.NewDecoder(bytes.NewReader(body))
		from.DisallowUnknownFields()
		if err := from.Decode(&asked); err != nil && len(bytes.TrimSpace(body)) > 0 {
			bad("the body isn't an act: " + err.Error()).send(w)
			return
		}
		if !s.mayCampaign(w, r, do, keys["campaign"]) {
			return
		}
		record := asked.record(do, keys["campaign"])
		if do != campaigns.Close && !s.signs(w, r, record) {
			return
		}
		if record.Signs() { // who may not sign isn't told what an answer is
			if err := s.Keeper.Campaigns.May(record); err != nil {
				problemFor(err).send(w)
				return
			}
			if err := s.see(r.Context(), record, asked.Serial); err != nil {
				problemFor(err).send(w)
				return
			}
		}
		s.act(w, r, record)
	}
}

// signs sees that it is known who acts, and whom he may name, and answers itself where it isn't.
func (s *Server) signs(w *answered, r *http.Request, record *campaigns.Record) bool {
	who := s.visitor(r)
	if who == nil {
		problem{Title: "nobody is known", Status: http.StatusForbidden, Detail: "who signs is known by --access"}.send(w)
		return false
	}
	if name, nobody := s.who(r); nobody != nil || s.Signed == nil && name != visitIn(r.Context()).last().Name {
		problem{Title: "nobody is known", Status: http.StatusForbidden,
			Detail: "a field says who signs, and whoever sends it shows no certificate"}.send(w)
		return false
	}
	if len(record.Items) > mostItems {
		bad("an act is of at most 10,000 items").send(w)
		return false
	}
	if record.To != "" && !s.Access.Knows(record.To) {
		problem{Title: "nobody", Status: http.StatusUnprocessableEntity, Detail: "nobody is known as " + record.To}.send(w)
		return false
	}
	record.Person, record.By, record.Time = who.Person, who.Name, time.Now()
	return true
}

// visitor is who asks, or nil where that isn't known. Of whom a server before the front names only the name is known.
func (s *Server) visitor(r *http.Request) *access.Identity {
	v := visitIn(r.Context())
	if s.Access == nil || v == nil || v.last() == nil {
		return nil
	}
	who := *v.last()
	if name, nobody := s.who(r); nobody == nil && name != who.Name {
		who.Name, who.Person = name, ""
	}
	return &who
}

// see writes into a record which answers its items have now. What isn't as it was seen is told at once.
func (s *Server) see(ctx context.Context, record *campaigns.Record, since uint64) error {
	cells, err := s.Keeper.Campaigns.Cells(record.Campaign, record.Items)
	if err != nil {
		return err
	}
	answers, _, err := s.answersOf(ctx, cells)
	if err != nil {
		return err
	}
	if campaigns.Digest(cells, answers) != record.Digest {
		if err := s.Keeper.Follow(ctx, s.Keeper.Serial()); err != nil {
			return err
		}
		return s.Keeper.Campaigns.Differ(record.Campaign, record.Items, answers, since)
	}
	record.See(answers)
	return nil
}

// answersOf asks the program for cells, and gives up to which serial all answers are.
func (s *Server) answersOf(ctx context.Context, cells []campaigns.Cell) (answers []*campaigns.Answer,
	serial uint64, err error) {
	for len(cells) > 0 {
		some := cells
		if len(some) > line.Ahead {
			some = some[:line.Ahead]
		}
		cells = cells[len(some):]
		var lines [][]byte
		for _, cell := range some {
			lines = append(lines, cell.Question())
		}
		for _, reply := range s.Keeper.AskAll(ctx, lines) {
			if reply.Err != nil {
				return nil, 0, reply.Err
			}
			one, err := campaigns.ReadAnswer(reply.Body)
			if err != nil {
				return nil, 0, err
			}
			if serial == 0 || reply.Serial < serial {
				serial = reply.Serial
			}
			answers = append(answers, one)
		}
	}
	return answers, serial, nil
}

// act has a record judged, and tells what became of it.
func (s *Server) act(w *answered, r *http.Request, record *campaigns.Record) {
	by, nobody := s.who(r)
	if nobody != nil {
		nobody.send(w)
		return
	}
	reply := s.Keeper.Act(r.Context(), record, by)
	if reply.Err != nil {
		problemFor(reply.Err).send(w)
		return
	}
	sendReply(w, reply)
}

// campaignItems tells the items of a campaign by groups.
func (s *Server) campaignItems(w *answered, r *http.Request, keys map[string]string) {
	q, err := queryOf(r.URL.RawQuery, itemsKeys...)
	var asked campaigns.Query
	if err == nil {
		asked, err = itemsQuery(q)
	}
	if err != nil {
		bad(err.Error()).send(w)
		return
	}
	name := keys["campaign"]
	if !s.mayCampaign(w, r, "campaign.items", name) || !s.ownItems(w, r, name, &asked) || !s.follow(w, r) {
		return
	}
	page, err := s.page(r.Context(), name, asked)
	if err != nil {
		problemFor(err).send(w)
	} else if wrong := s.callPeople(r.Context(), page); wrong != nil {
		wrong.send(w)
	} else {
		tellJSON(w, page)
	}
}

// itemsQuery reads a query of items.
func itemsQuery(q query) (asked campaigns.Query, err error) {
	reviewer, err := q.one("reviewer")
	if reviewer != "" {
		asked.Reviewers = []string{reviewer}
	}
	if err == nil {
		asked.From, err = q.whole("from", 0, 1<<40)
	}
	if err == nil {
		asked.Count, err = q.whole("count", groupsOr, mostGroups)
	}
	for _, word := range q["state"] {
		state, known := campaigns.ReadState(word)
		if !known && err == nil {
			err = &badValue{key: "state", is: "a state of an item"}
		}
		asked.States = append(asked.States, state)
	}
	return asked, err
}

// ownItems sees that who may look at no others asks for his own, which are meant where he names nobody.
func (s *Server) ownItems(w *answered, r *http.Request, name string, asked *campaigns.Query) bool {
	who := s.visitor(r)
	if who == nil {
		return true
	}
	if _, wrong := s.judge(visitIn(r.Context()), aboutCampaign("campaign.all", name)); !wrong {
		return true
	}
	for _, one := range asked.Reviewers {
		if one != who.Name && one != who.Person {
			return s.mayAll(w, r, aboutCampaign("campaign.all", name))
		}
	}
	if len(asked.Reviewers) == 0 {
		asked.Reviewers = []string{who.Name}
		if who.Person != "" {
			asked.Reviewers = append(asked.Reviewers, who.Person)
		}
	}
	return true
}

// page lists items, with their answers as they are now.
func (s *Server) page(ctx context.Context, name string, asked campaigns.Query) (*campaigns.Page, error) {
	table := s.Keeper.Campaigns
	for try := 0; ; try++ {
		page, err := table.List(name, asked)
		if err != nil || len(page.Stale) == 0 || try == refreshes {
			return page, err
		}
		cells, err := table.Cells(name, page.Stale)
		if err != nil {
			return nil, err
		}
		answers, serial, err := s.answersOf(ctx, cells)
		if err != nil {
			return nil, err
		}
		if err := s.Keeper.Follow(ctx, serial); err != nil {
			return nil, err
		}
		table.Fresh(name, page.Stale, answers, serial)
	}
}

// problemOfCampaign is what is told of a record that isn't taken.
func problemOfCampaign(err error) (problem, bool) {
	var refused *campaigns.Refused
	if !errors.As(err, &refused) {
		return problem{}, false
	}
	told := problem{Title: refused.Title, Status: refused.Status, Detail: refused.Detail}
	if len(refused.Changed) > 0 {
		told.Changed = refused.Changed
	}
	return told, true
}
