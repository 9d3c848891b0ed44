package keeper

import (
	"context"
	"errors"
	"time"

	"review-front/campaigns"
	"review-front/line"
)

// remindPause is how often it is looked which reminders and ends days ask for, where nothing else happens.
const remindPause = time.Minute

// reminds has records made that days ask for, until the context is done. Of several fronts of a stream the one whose
// record is taken tells of it.
func (k *Keeper) reminds(ctx context.Context) {
	if k.recorder.book == nil {
		return
	}
	tick := time.NewTicker(remindPause)
	defer tick.Stop()
	for ctx.Err() == nil {
		_, moved := k.Campaigns.UpTo()
		if k.ready.is() {
			k.remind(ctx)
		}
		select {
		case <-moved:
		case <-tick.C:
		case <-ctx.Done():
		}
	}
}

// remind does it once.
func (k *Keeper) remind(ctx context.Context) {
	for _, record := range k.Campaigns.Due(time.Now()) {
		reply := k.Act(ctx, record, "")
		var refused *campaigns.Refused
		if reply.Err != nil && ctx.Err() == nil && !errors.As(reply.Err, &refused) {
			k.Log.Error("a record that a day asks for isn't made", "campaign", record.Campaign, "do", record.Do,
				"error", reply.Err)
		}
	}
}

// announces tells of a record that this front made, where somebody is to be told.
func (k *Keeper) announces(ctx context.Context, do string, reply Reply) {
	if k.Announce == nil || reply.Err != nil || do != campaigns.Open && do != campaigns.Close && do != campaigns.Remind {
		return
	}
	name, serial, ok := line.ReadCampaign(reply.Body)
	if !ok || k.Follow(ctx, serial) != nil {
		return
	}
	events, _, err := k.Campaigns.Events(name, serial-1)
	if err == nil && len(events) > 0 && events[0].Serial == serial {
		k.Announce(events[0])
	}
}
