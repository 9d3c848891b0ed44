package access

import "sort"

// Metrics is the word for the counts of the front, which no command tells.
const Metrics = "metrics"

// Roles are those that there are without being told: for each the commands that it has.
var Roles = map[string][]string{
	"ask": {"ask"},
	"read": {
		"table", "cell", "counts", "can", "who", "by_rule", "cells", "documents", "attributes", "explain", "faults", "state",
		"limits", "names", "work", "format",
	},
	"audit": {"mark", "notices", "changes"},
	"edit": {
		"person.add", "person.drop", "action.add", "action.drop", "resource.add", "resource.drop", "policy.add",
		"policy.replace", "policy.withdraw", "root.set", "attr.set", "day.set", "moment.set",
	},
	"review": {
		"campaign.show", "campaign.items", "campaign.keep", "campaign.revoke", "campaign.pass", "campaign.undo",
	},
	"campaign": {
		"campaign.show", "campaign.items", "campaign.all", "campaign.tasks", "campaign.open", "campaign.close",
		"campaign.evidence",
	},
	"provision": {"scim.read", "scim.write"},
	"release":   {"scim.hold", "scim.let"},
	"operate":   {"dump", "day.set", "moment.set", "state", "limits", "work", "format"},
	Metrics:     {Metrics},
}

// commands are all that a role has.
var commands = func() map[string]bool {
	all := map[string]bool{}
	for _, some := range Roles {
		for _, command := range some {
			all[command] = true
		}
	}
	return all
}()

// Commands are all that a role has, in their order.
func Commands() []string {
	var all []string
	for command := range commands {
		all = append(all, command)
	}
	sort.Strings(all)
	return all
}
