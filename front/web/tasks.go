package web

import (
	"encoding/json"
	"fmt"
	"net/http"
	"strconv"

	"review-front/campaigns"
	"review-front/line"
)

// task is something that is to be revoked: the cell, who asks for it and why, and what gives it.
type task struct {
	Item     uint32          `json:"item"`
	Person   string          `json:"person"`
	Action   string          `json:"action"`
	Resource string          `json:"resource"`
	Signed   *campaigns.Told `json:"signed"`
	// Explain is what the answer rests on now: its rules and facts.
	Explain json.RawMessage `json:"explain"`
}

// tasksKeys has the keys of a query of tasks.
var tasksKeys = []key{{"from", wholeOrNo}, {"count", wholeOrNo}}

// tasks tells what is to be revoked and is still there.
func (s *Server) tasks(w *answered, r *http.Request, keys map[string]string) {
	q, err := queryOf(r.URL.RawQuery, tasksKeys...)
	var asked campaigns.Query
	if err == nil {
		asked, err = itemsQuery(q)
	}
	if err != nil {
		bad(err.Error()).send(w)
		return
	}
	name := keys["campaign"]
	if !s.mayCampaign(w, r, "campaign.tasks", name) || !s.follow(w, r) {
		return
	}
	asked.States = []campaigns.State{campaigns.StateRevoke}
	page, err := s.page(r.Context(), name, asked)
	if err != nil {
		problemFor(err).send(w)
		return
	}
	tasks, err := s.explained(r, name, page)
	if err != nil {
		problemFor(err).send(w)
		return
	}
	tellJSON(w, map[string]any{"tasks": tasks, "more": page.More, "serial": page.Serial})
}

// explained are the items of a page as tasks, with what each answer rests on.
func (s *Server) explained(r *http.Request, name string, page *campaigns.Page) ([]task, error) {
	tasks, lines := []task{}, [][]byte{}
	for _, group := range page.Groups {
		for _, item := range group.Items {
			tasks = append(tasks, task{
				Item: item.Item, Person: group.Person, Action: item.Action, Resource: item.Resource, Signed: item.Signed,
			})
			lines = append(lines, []byte(`{"do":"explain","person":`+quoted(group.Person)+`,"action":`+quoted(item.Action)+
				`,"resource":`+quoted(item.Resource)+`}`))
		}
	}
	for at := 0; at < len(lines); at += line.Ahead {
		some := lines[at:]
		if len(some) > line.Ahead {
			some = some[:line.Ahead]
		}
		for i, reply := range s.Keeper.AskAll(r.Context(), some) {
			if reply.Err != nil {
				return nil, reply.Err
			}
			var said struct{ Explain json.RawMessage }
			if json.Unmarshal(reply.Body, &said) == nil {
				tasks[at+i].Explain = said.Explain
			}
		}
	}
	return tasks, nil
}

// campaignItem tells one item, as a group of its own, and what its answer rests on now: who is to sign it has to see
// why it is so, and needn't have any right to the table.
func (s *Server) campaignItem(w *answered, r *http.Request, keys map[string]string) {
	number, err := strconv.ParseUint(keys["item"], 10, 32)
	if err != nil {
		bad("an item is told by its number").send(w)
		return
	}
	name, item := keys["campaign"], uint32(number)
	asked := campaigns.Query{Item: &item, Count: 1}
	if !s.mayCampaign(w, r, "campaign.items", name) || !s.ownItems(w, r, name, &asked) || !s.follow(w, r) {
		return
	}
	page, err := s.page(r.Context(), name, asked)
	var explained []task
	if err == nil {
		explained, err = s.explained(r, name, page)
	}
	if err == nil && len(explained) == 0 {
		err = &campaigns.Refused{Status: http.StatusNotFound, Title: "no such item", Detail: noItem(item, asked)}
	}
	if err != nil {
		problemFor(err).send(w)
		return
	}
	tellJSON(w, map[string]any{
		"campaign": name, "group": page.Groups[0], "explain": explained[0].Explain, "serial": page.Serial,
	})
}

// noItem says that there is no such item, of all or of those of some reviewers.
func noItem(item uint32, asked campaigns.Query) string {
	if len(asked.Reviewers) > 0 {
		return fmt.Sprintf("there is no item %d that %s reviews", item, asked.Reviewers[0])
	}
	return fmt.Sprintf("there is no item %d", item)
}
