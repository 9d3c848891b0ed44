// Package values makes names and rows of records, in the one spelling that the program has for each value.
package values

import (
	"errors"
	"fmt"
	"regexp"
	"strconv"
	"strings"
	"time"

	"review-front/source/form"
)

// truths are how true and false are written, in any case.
var truths = map[string]string{
	"true": "true", "t": "true", "yes": "true", "y": "true", "1": "true",
	"false": "false", "f": "false", "no": "false", "n": "false", "0": "false",
}

var durationForm = regexp.MustCompile(`^(-?)P(?:(\d{1,9})Y)?(?:(\d{1,9})M)?$`)

// Value reads a value of a type, and gives the one spelling that the program has for it.
func Value(written string, of form.Attribute) (string, error) {
	switch of.Type {
	case "boolean":
		if truth, known := truths[strings.ToLower(written)]; known {
			return truth, nil
		}
		return "", fmt.Errorf("%.40q is neither true nor false", written)
	case "integer":
		n, err := strconv.ParseInt(written, 10, 64)
		if err != nil {
			return "", fmt.Errorf("%.40q is no integer of 64 bits", written)
		}
		return strconv.FormatInt(n, 10), nil
	case "yearMonthDuration":
		return duration(written)
	case "date", "dateTime", "time":
		return moment(written, of)
	}
	return cased(written, of.Case), nil
}

// Layouts are how the program writes a day, a moment and a time.
var Layouts = map[string]string{"date": "2006-01-02", "dateTime": "2006-01-02T15:04:05", "time": "15:04:05"}

// moment reads a day, a moment or a time by its form. A moment with an offset is that of UTC.
func moment(written string, of form.Attribute) (string, error) {
	if of.Form == "seconds" {
		seconds, err := strconv.ParseInt(written, 10, 64)
		at := time.Unix(seconds, 0).UTC()
		if err != nil || at.Year() < 1 || at.Year() > 9999 {
			return "", fmt.Errorf("%.40q is no number of seconds since 1970", written)
		}
		return at.Format(Layouts[of.Type]), nil
	}
	for _, layout := range form.Forms[of.Type][of.Form] {
		at, err := time.Parse(layout, written)
		year := at.UTC().Year()
		if err == nil && at.Nanosecond() == 0 && (of.Type == "time" || year > 0 && year < 10_000) {
			return at.UTC().Format(Layouts[of.Type]), nil
		}
	}
	if of.Form == "" {
		return "", fmt.Errorf("%.40q is no %s", written, of.Type)
	}
	return "", fmt.Errorf("%.40q is no %s of the form %s", written, of.Type, of.Form)
}

// duration gives the one spelling of years and months.
func duration(written string) (string, error) {
	found := durationForm.FindStringSubmatch(written)
	if found == nil || found[2] == "" && found[3] == "" {
		return "", fmt.Errorf("%.40q is no yearMonthDuration", written)
	}
	years, _ := strconv.ParseInt("0"+found[2], 10, 64)
	months, _ := strconv.ParseInt("0"+found[3], 10, 64)
	years, months = years+months/12, months%12
	if years > 999_999_999 {
		return "", fmt.Errorf("%.40q has too many years", written)
	}
	switch text := ""; {
	case years == 0 && months == 0:
		return "P0M", nil
	case years > 0:
		text = fmt.Sprintf("%dY", years)
		fallthrough
	default:
		if months > 0 {
			text += fmt.Sprintf("%dM", months)
		}
		return found[1] + "P" + text, nil
	}
}

// cased is a text in small or large letters, where the file says so.
func cased(written, how string) string {
	switch how {
	case "lower":
		return strings.ToLower(written)
	case "upper":
		return strings.ToUpper(written)
	}
	return written
}

// ErrNoUTF8 says that a text isn't UTF-8.
var ErrNoUTF8 = errors.New("it isn't UTF-8")
