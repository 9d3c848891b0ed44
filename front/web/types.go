package web

import (
	"mime"
	"strconv"
	"strings"
)

const (
	profileType = "application/xacml+json"
	xmlType     = "application/xacml+xml"
)

// requestType is of which type a request is by what its head says: that of the JSON Profile, also where nothing is
// said, or JSON, or what curl says by itself; or XML. Else it is nothing.
func requestType(given string) string {
	if given == "" || given == profileType {
		return profileType
	}
	kind, _, err := mime.ParseMediaType(given)
	switch {
	case err != nil:
		return ""
	case kind == profileType || kind == "application/json" || kind == "application/x-www-form-urlencoded":
		return profileType
	case kind == xmlType || kind == "application/xml":
		return xmlType
	}
	return ""
}

// ranges are the types and ranges of types that a response is of, by its type, and how closely each tells it.
var ranges = map[string]map[string]int{
	profileType: {"*/*": 1, "application/*": 2, "application/json": 3, profileType: 4},
	xmlType:     {"*/*": 1, "application/*": 2, "application/xml": 3, xmlType: 4},
}

// responseType is of which type who asks takes the response: that of his request, unless he says that he prefers the
// other. It is nothing where he takes neither.
func responseType(given []string, own string) string {
	if len(given) == 0 || len(given) == 1 && (given[0] == "" || given[0] == "*/*" || given[0] == own) {
		return own
	}
	other := profileType
	if own == profileType {
		other = xmlType
	}
	wanted, instead := weight(given, own), weight(given, other)
	switch {
	case wanted > 0 && wanted >= instead:
		return own
	case instead > 0:
		return other
	}
	return ""
}

// weight is how much who asks wants a type (RFC 9110, 12.5.1): the closest of what he says counts, and a weight of 0
// says no.
func weight(given []string, of string) float64 {
	closest, weight := 0, 0.0
	for _, one := range strings.Split(strings.Join(given, ","), ",") {
		kind, more, err := mime.ParseMediaType(strings.TrimSpace(one))
		if err != nil || ranges[of][kind] <= closest {
			continue
		}
		closest = ranges[of][kind]
		if weight, err = strconv.ParseFloat(more["q"], 64); err != nil {
			weight = 1
		}
	}
	return weight
}
