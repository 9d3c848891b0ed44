package web

import (
	"fmt"
	"net/http"
	"strconv"
	"time"

	"review-front/campaigns"
)

// campaignEvents tells what happens to a campaign, as server-sent events: from its opening on, or behind the last one
// that who comes back has heard.
func (s *Server) campaignEvents(w *answered, r *http.Request, keys map[string]string) {
	name := keys["campaign"]
	if !s.mayCampaign(w, r, "campaign.show", name) || !s.follow(w, r) {
		return
	}
	heard, _ := strconv.ParseUint(r.Header.Get("Last-Event-ID"), 10, 64)
	if _, _, err := s.Keeper.Campaigns.Events(name, heard); err != nil {
		problemFor(err).send(w)
		return
	}
	w.Header().Set("Content-Type", "text/event-stream")
	w.Header().Set("Cache-Control", "no-store")
	w.WriteHeader(http.StatusOK)
	w.Flush()
	if r.Method != http.MethodHead {
		s.tellCampaign(w, r, name, heard)
	}
}

// tellCampaign tells events until one of both ends it, or he may not listen any more.
func (s *Server) tellCampaign(w *answered, r *http.Request, name string, heard uint64) {
	tick := time.NewTicker(s.Beat)
	defer tick.Stop()
	stay := s.stays(r, "campaign.show")
	defer stay.end()
	for stay.may() {
		events, moved, err := s.Keeper.Campaigns.Events(name, heard)
		for _, event := range events {
			if err == nil {
				err = sendCampaignEvent(w, event)
				heard = event.Serial
			}
		}
		if err != nil {
			return
		}
		w.Flush()
		again, over := stay.again()
		select {
		case <-moved:
		case <-tick.C:
			if _, err := w.Write([]byte(":\n\n")); err != nil {
				return
			}
		case <-again:
		case <-over:
		case <-r.Context().Done():
			return
		case <-s.stopping:
			return
		}
	}
}

// sendCampaignEvent sends an event.
func sendCampaignEvent(w http.ResponseWriter, event campaigns.Event) error {
	_, err := fmt.Fprintf(w, "event: %s\nid: %d\ndata: %s\n\n", event.Kind, event.Serial, event.Line())
	return err
}
