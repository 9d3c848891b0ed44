package main

import (
	"fmt"
	"strconv"
	"strings"
	"time"

	"review-front/keeper"
	"review-front/measure"
	"review-front/provision"
)

// provisioning is which names and rows users of SCIM have, nil where there are none, and how many may go.
func (o options) provisioning() (*provision.Mapping, keeper.Bound, error) {
	bound := keeper.Bound{Within: int(o.scimWithin / time.Second)}
	if o.scim == "" {
		return nil, bound, nil
	}
	mapping, err := provision.Read(o.scim)
	if err != nil {
		return nil, bound, fmt.Errorf("users of SCIM: %w", err)
	}
	if mapping.Source.Module >= o.attributeModules {
		return nil, bound, fmt.Errorf("users of SCIM: %s: there is no module %d of attributes", o.scim, mapping.Source.Module)
	}
	if o.scimAtMost == "" {
		return mapping, bound, nil
	}
	per, err := strconv.ParseFloat(strings.TrimSuffix(o.scimAtMost, "%"), 64)
	if err != nil || !strings.HasSuffix(o.scimAtMost, "%") || !(per >= 0 && per <= 100) {
		return nil, bound, fmt.Errorf("--scim-at-most is from 0%% to 100%%, and not %q", o.scimAtMost)
	}
	bound.Given, bound.Per = true, per
	return mapping, bound, nil
}

// watchScim adds counts of users and groups, where there may be some.
func watchScim(meter *measure.Meter, k *keeper.Keeper) {
	if k.Provision == nil {
		return
	}
	meter.Watch("scim_users", "Users of SCIM.", func() float64 { return float64(k.Scim.Count("User")) })
	meter.Watch("scim_groups", "Groups of SCIM.", func() float64 { return float64(k.Scim.Count("Group")) })
	meter.Watch("scim_held", "Whether provisioning is held.", func() float64 {
		return oneWhere(k.Scim.Holding(time.Now(), k.AtMost.Within).Held != nil)
	})
	meter.Watch("scim_behind", "Names that the table hasn't as SCIM has them.", func() float64 {
		_, count := k.Behind()
		return float64(count)
	})
}
