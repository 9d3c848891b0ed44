package values

import (
	"testing"

	"review-front/source/form"
)

// TestValue reads values in the one spelling that the program has, and not what is none.
func TestValue(t *testing.T) {
	for _, one := range []struct{ kind, form, written, want string }{
		{"integer", "", "+012", "12"}, {"integer", "", "-0", "0"}, {"integer", "", "9223372036854775808", ""},
		{"boolean", "", "YES", "true"}, {"boolean", "", "0", "false"}, {"boolean", "", "on", ""},
		{"yearMonthDuration", "", "P14M", "P1Y2M"}, {"yearMonthDuration", "", "-P0Y", "P0M"},
		{"yearMonthDuration", "", "P", ""},
		{"yearMonthDuration", "", "-P12M", "-P1Y"}, {"yearMonthDuration", "", "P999999999Y12M", ""},
		{"date", "", "2024-02-29Z", "2024-02-29"}, {"date", "", "2025-02-29", ""},
		{"date", "DD.MM.YYYY", "1.3.2020", "2020-03-01"},
		{"date", "MM/DD/YYYY", "02/01/2020", "2020-02-01"}, {"date", "generalized", "20200201100000Z", "2020-02-01"},
		{"dateTime", "RFC 3339", "2020-01-01T00:30:00+01:00", "2019-12-31T23:30:00"},
		{"dateTime", "", "2020-01-01T24:00:00", ""},
		{"dateTime", "seconds", "0", "1970-01-01T00:00:00"}, {"dateTime", "generalized", "20200201100000.5Z", ""},
		{"time", "hh:mm", "09:30", "09:30:00"}, {"time", "", "09:30:00Z", "09:30:00"}, {"string", "", " A ", " A "},
	} {
		got, err := Value(one.written, form.Attribute{Type: one.kind, Form: one.form})
		if got != one.want || (err != nil) != (one.want == "") {
			t.Errorf("%s of the form %q: %q is %q, %v", one.kind, one.form, one.written, got, err)
		}
	}
}
