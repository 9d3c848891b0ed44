package main

import (
	"bytes"
	"context"
	"os/exec"
	"time"

	"review-front/campaigns"
	"review-front/logs"
)

const (
	// announceTime is how long the command of campaigns may take, and announceTries how often it is called at most.
	announceTime  = time.Minute
	announceTries = 5
)

// announcing calls the command of campaigns, if there is one, until it succeeds, for some times.
func (o options) announcing(log *logs.Log) func(campaigns.Event) {
	if o.campaignCommand == "" {
		return nil
	}
	return func(event campaigns.Event) {
		pause := time.Second
		for try := 1; ; try++ {
			said, err := announce(o.campaignCommand, event)
			if err == nil {
				return
			}
			log.Error("the command of campaigns failed", "event", event.Kind, "campaign", event.Campaign, "error", err,
				"said", string(said), "try", try)
			if try == announceTries {
				return
			}
			time.Sleep(pause)
			pause *= 2
		}
	}
}

// announce calls the command once.
func announce(words string, event campaigns.Event) ([]byte, error) {
	ctx, cancel := context.WithTimeout(context.Background(), announceTime)
	defer cancel()
	command := exec.CommandContext(ctx, "/bin/sh", "-c", words)
	command.Stdin = bytes.NewReader(append(event.Line(), '\n'))
	return command.CombinedOutput()
}
