package web

import (
	"bytes"
	"encoding/json"
	"net/http"

	"review-front/keeper"
	"review-front/line"
)

// namesModules says whether the reply to a command tells modules of attributes, and these have names.
func (s *Server) namesModules(do string) bool {
	return len(s.ModuleNames) > 0 && (do == "attributes" || do == "explain")
}

// raw is an object of JSON whose values stay as they are.
type raw map[string]json.RawMessage

// withModules is the reply to a question with the names of the modules that it tells, or that values come from. `ask`
// asks of the same state.
func (s *Server) withModules(r *http.Request, do string, reply keeper.Reply,
	ask func([]byte) keeper.Reply) keeper.Reply {
	if reply.Err != nil || reply.Rest != nil {
		return reply
	}
	var whole raw
	if json.Unmarshal(reply.Body, &whole) != nil || whole[do] == nil {
		return reply
	}
	if do == "attributes" {
		var rows []raw
		if json.Unmarshal(whole[do], &rows) != nil {
			return reply
		}
		for _, row := range rows {
			s.name(row, row["module"])
		}
		whole[do] = compact(rows)
	} else {
		var told raw
		var facts []raw
		if json.Unmarshal(whole[do], &told) != nil || json.Unmarshal(told["facts"], &facts) != nil {
			return reply
		}
		s.nameFacts(r, facts, ask)
		told["facts"] = compact(facts)
		whole[do] = compact(told)
	}
	reply.Body = compact(whole)
	return reply
}

// name adds the name of a module.
func (s *Server) name(to raw, module json.RawMessage) {
	var number int
	if json.Unmarshal(module, &number) != nil || number < 0 || number >= len(s.ModuleNames) {
		return
	}
	to["module"], to["module_name"] = module, json.RawMessage(quoted(s.ModuleNames[number]))
}

// row is a row as `attributes` tells it.
type row struct {
	Attribute, Datatype string
	Issuer              *string
	Module              int
	Values              []json.RawMessage
}

// nameFacts names the module of each fact about an attribute of which there are values, for who may ask for these: it
// is the first that has some. Where the module has others by now an edit came between, and none is named.
func (s *Server) nameFacts(r *http.Request, facts []raw, ask func([]byte) keeper.Reply) {
	rows := map[string][]row{}
	for _, fact := range facts {
		if fact["attribute"] == nil {
			continue
		}
		l := []byte(`{"do":"attributes","category":` + string(fact["category"]) + `,"entity":` + string(fact["entity"]) + `}`)
		if _, known := rows[string(l)]; !known {
			rows[string(l)] = s.rowsOf(r, l, ask)
		}
		s.nameFact(fact, rows[string(l)])
	}
}

// rowsOf asks for rows, or gives none to who may not ask for them.
func (s *Server) rowsOf(r *http.Request, l []byte, ask func([]byte) keeper.Reply) []row {
	if _, wrong := s.judge(visitIn(r.Context()), l); wrong || len(l) > line.Limit {
		return nil
	}
	var told struct{ Attributes []row }
	if reply := ask(l); reply.Err == nil && json.Unmarshal(reply.Body, &told) == nil {
		return told.Attributes
	}
	return nil
}

// nameFact names the module of a fact's values.
func (s *Server) nameFact(fact raw, rows []row) {
	var about row
	written := compact(fact)
	if json.Unmarshal(written, &about) != nil || len(about.Values) == 0 {
		return
	}
	first := -1
	var values []json.RawMessage
	for _, one := range rows {
		if one.Attribute != about.Attribute || one.Datatype != about.Datatype ||
			about.Issuer != nil && (one.Issuer == nil || *one.Issuer != *about.Issuer) {
			continue
		}
		if first < 0 || one.Module < first {
			first, values = one.Module, nil
		}
		if one.Module == first {
			values = append(values, one.Values...)
		}
	}
	if first >= 0 && bytes.Equal(compact(values), compact(about.Values)) {
		s.name(fact, compact(first))
	}
}

// compact is a value as the program writes JSON: its keys in the order of their bytes, and signs as they are.
func compact(value any) json.RawMessage {
	var to bytes.Buffer
	into := json.NewEncoder(&to)
	into.SetEscapeHTML(false)
	if err := into.Encode(value); err != nil {
		return json.RawMessage("null")
	}
	return bytes.TrimSuffix(to.Bytes(), []byte("\n"))
}
