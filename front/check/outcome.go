package check

import (
	"bytes"
	"encoding/json"
	"fmt"
	"net/http"
	"reflect"
	"strings"
)

// Outcome is what a proxy is answered.
type Outcome struct {
	Status int // 204, or what the file names in its place, or 403
	Reason string
	Fields map[string]string // those that hand obligations over
}

// duty is an obligation of a response.
type duty struct {
	Id                  string
	AttributeAssignment []struct {
		AttributeId string
		Value       any
	}
}

// Outcome is what a response of the program has a proxy do. Permit alone is one, and none whose obligations the proxy
// isn't handed (section 7.18: who doesn't understand an obligation denies access).
func (m *Mapping) Outcome(response []byte) Outcome {
	var read struct {
		Response []struct {
			Decision    string
			Status      struct{ StatusCode struct{ Value string } }
			Obligations []duty
		}
	}
	from := json.NewDecoder(bytes.NewReader(response))
	from.UseNumber()
	if err := from.Decode(&read); err != nil || len(read.Response) != 1 {
		return Outcome{Status: http.StatusForbidden, Reason: "the response can't be read"}
	}
	one := read.Response[0]
	fields, unknown := m.handed(one.Obligations)
	told := Outcome{Status: http.StatusForbidden, Reason: one.Decision, Fields: fields}
	switch {
	case one.Decision == "Permit" && unknown == "":
		told.Status = m.permit
	case one.Decision == "Permit":
		told.Reason, told.Fields = unknown, nil
	case one.Decision == "Indeterminate":
		told.Reason += ": " + one.Status.StatusCode.Value
	}
	return told
}

// handed is by which fields obligations are handed over, and which can't be, if there is one.
func (m *Mapping) handed(duties []duty) (fields map[string]string, unknown string) {
	fields = map[string]string{}
	done := map[string]map[string][]string{}
	for _, one := range duties {
		known, there := m.obligations[one.Id]
		if !there {
			unknown = fmt.Sprintf("the obligation %s isn't known", one.Id)
			continue
		}
		values := map[string][]string{}
		for _, assigned := range one.AttributeAssignment {
			field := known.values[assigned.AttributeId]
			if field == "" {
				unknown = fmt.Sprintf("%s of the obligation %s isn't known", assigned.AttributeId, one.Id)
				continue
			}
			values[field] = append(values[field], texts(assigned.Value)...)
		}
		if before, twice := done[one.Id]; twice && !reflect.DeepEqual(before, values) {
			unknown = fmt.Sprintf("the obligation %s comes twice", one.Id)
			continue
		}
		done[one.Id] = values
		if known.header != "" {
			fields[known.header] = written(one.Id)
		}
		for field, all := range values {
			fields[field] = strings.Join(all, ", ")
		}
	}
	return fields, unknown
}

// texts are values as they stand in a field.
func texts(value any) []string {
	if list, several := value.([]any); several {
		var all []string
		for _, one := range list {
			all = append(all, texts(one)...)
		}
		return all
	}
	return []string{written(fmt.Sprint(value))}
}

// written is a text with escapes for what a field can't have, for percent signs, and for commas, which stand between
// values.
func written(text string) string {
	var all strings.Builder
	for i := 0; i < len(text); i++ {
		c := text[i]
		edge := c == ' ' && (i == 0 || i == len(text)-1)
		if c < ' ' || c >= 0x7f || c == '%' || c == ',' || edge {
			fmt.Fprintf(&all, "%%%02X", c)
			continue
		}
		all.WriteByte(c)
	}
	return all.String()
}
