package authzen

import (
	"regexp"

	"review-front/profile"
)

// clockPattern is a dateTime or a time as it is written elsewhere: with a fraction of a second, or without seconds.
var clockPattern = regexp.MustCompile(`^((?:\d{4}-\d\d-\d\dT)?\d\d:\d\d)(?:(:\d\d)(?:\.\d+)?)?(Z|[+-]\d\d:\d\d)?$`)

// clocks are the types of which that is taken.
var clocks = map[string]bool{profile.TypeOf("dateTime"): true, profile.TypeOf("time"): true}

// inSeconds is a value of a type, or a list of them, in whole seconds, as times are here: a fraction is cut, and absent
// seconds are 00. What is none stays.
func inSeconds(datatype string, value any) any {
	if !clocks[profile.TypeOf(datatype)] {
		return value
	}
	switch value := value.(type) {
	case string:
		parts := clockPattern.FindStringSubmatch(value)
		if parts == nil {
			return value
		}
		if parts[2] == "" {
			parts[2] = ":00"
		}
		return parts[1] + parts[2] + parts[3]
	case []any:
		var all []any
		for _, one := range value {
			all = append(all, inSeconds(datatype, one))
		}
		return all
	}
	return value
}
