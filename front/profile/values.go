package profile

import (
	"encoding/json"
	"regexp"
	"strconv"
	"strings"
	"time"
)

var (
	datePattern     = regexp.MustCompile(`^(\d{4}-\d\d-\d\d)(Z|[+-]\d\d:\d\d)?$`)
	timePattern     = regexp.MustCompile(`^(\d\d:\d\d:\d\d)(\.\d+)?(Z|[+-]\d\d:\d\d)?$`)
	momentPattern   = regexp.MustCompile(`^(\d{4}-\d\d-\d\d)T(\d\d:\d\d:\d\d)(\.\d+)?(Z|[+-]\d\d:\d\d)?$`)
	offsetPattern   = regexp.MustCompile(`^[+-](0\d:[0-5]\d|1[0-3]:[0-5]\d|14:00)$`)
	durationPattern = regexp.MustCompile(`^-?P(\d{1,9}Y)?(\d{1,9}M)?$`)
	integerPattern  = regexp.MustCompile(`^[+-]?\d+$`)
)

const (
	dayForm    = "2006-01-02"
	clockForm  = "15:04:05"
	momentForm = dayForm + "T" + clockForm
	fraction   = "a fraction of a second other than zero isn't here: times are whole seconds"
)

// value is a value of a type that is here as the program reads it, or what is wrong with it. A dateTime with an offset
// becomes the same moment in UTC, and a fraction of a second that is zero is left out.
func value(uri string, given any) (read any, wrong string) {
	switch given := given.(type) {
	case bool:
		if uri != typeBoolean {
			return nil, "true and false are of type boolean"
		}
		return given, ""
	case json.Number:
		if uri != typeInteger {
			return nil, "a number is of type integer"
		}
		return given, unlessWhole(given.String())
	case string:
		return valueOfText(uri, given)
	case nil:
		return nil, "null is no value"
	}
	return nil, "a value is a text, true, false or a number"
}

// valueOfText is the value that a text spells.
func valueOfText(uri, text string) (read any, wrong string) {
	switch uri {
	case typeBoolean:
		if text != "true" && text != "false" && text != "1" && text != "0" {
			return nil, "it is no boolean: true, false, 1 or 0"
		}
	case typeInteger:
		return text, unlessWhole(text)
	case typeDate:
		return dateOf(text)
	case typeTime:
		return clockOf(text)
	case typeDateTime:
		return momentOf(text)
	case typeDuration:
		if !durationPattern.MatchString(text) || strings.HasSuffix(text, "P") {
			return nil, "it is no yearMonthDuration: PnY, PnM or PnYnM, n of 1 to 9 digits"
		}
	}
	return text, ""
}

// unlessWhole says what is wrong with a number, if it isn't a whole one of 64 bits.
func unlessWhole(text string) string {
	if !integerPattern.MatchString(text) {
		return "it is no whole number"
	}
	if _, err := strconv.ParseInt(text, 10, 64); err != nil {
		return "whole numbers lie within 64 bits here"
	}
	return ""
}

func dateOf(text string) (read any, wrong string) {
	parts := datePattern.FindStringSubmatch(text)
	switch {
	case parts == nil || !isReal(dayForm, parts[1]):
		return nil, "it is no date of the years 1 to 9999: YYYY-MM-DD"
	case isOffset(parts[2]):
		return nil, "an offset of a date isn't here"
	}
	return text, ""
}

func clockOf(text string) (read any, wrong string) {
	parts := timePattern.FindStringSubmatch(text)
	switch {
	case parts == nil || !isReal(clockForm, parts[1]):
		return nil, "it is no time: hh:mm:ss, up to 23:59:59"
	case isOffset(parts[3]):
		return nil, "an offset of a time isn't here"
	case strings.Trim(parts[2], ".0") != "":
		return nil, fraction
	}
	return parts[1] + parts[3], ""
}

func momentOf(text string) (read any, wrong string) {
	parts := momentPattern.FindStringSubmatch(text)
	if parts == nil || !isReal(momentForm, parts[1]+"T"+parts[2]) {
		return nil, "it is no dateTime of the years 1 to 9999: YYYY-MM-DDThh:mm:ss"
	}
	if strings.Trim(parts[3], ".0") != "" {
		return nil, fraction
	}
	local, offset := parts[1]+"T"+parts[2], parts[4]
	if !isOffset(offset) {
		return local + offset, ""
	}
	if !offsetPattern.MatchString(offset) {
		return nil, "an offset is at most 14:00"
	}
	moment, err := time.Parse(momentForm+"-07:00", local+offset)
	if err != nil || moment.UTC().Year() < 1 || moment.UTC().Year() > 9999 {
		return nil, "in UTC it isn't of the years 1 to 9999"
	}
	return moment.UTC().Format(momentForm) + "Z", ""
}

// isOffset says whether a zone is one that isn't UTC's `Z`.
func isOffset(zone string) bool { return zone != "" && zone != "Z" }

// isReal says whether the calendar has a day, and a clock a time.
func isReal(form, text string) bool {
	moment, err := time.Parse(form, text)
	return err == nil && (form == clockForm || moment.Year() > 0)
}
