package changed

import "encoding/json"

// documents has the keys at which kinds of documents, and references to them, have their ids.
var documents = []struct{ kind, id string }{
	{"Policy", "PolicyId"}, {"PolicySet", "PolicySetId"}, {"PolicyIdReference", "Id"}, {"PolicySetIdReference", "Id"},
}

// about is the command of an edit's line, and of whom or what it speaks.
func about(line []byte) (do, entity string) {
	var read struct {
		Do, Name, Entity, ID, Day, Moment string
		Document, Reference               map[string]json.RawMessage
	}
	if json.Unmarshal(line, &read) != nil {
		return read.Do, ""
	}
	for _, one := range []string{read.Name, read.Entity, read.ID, read.Day, read.Moment} {
		if one != "" {
			return read.Do, one
		}
	}
	for _, some := range []map[string]json.RawMessage{read.Document, read.Reference} {
		for _, known := range documents {
			var content map[string]json.RawMessage
			if json.Unmarshal(some[known.kind], &content) == nil {
				_ = json.Unmarshal(content[known.id], &entity)
			}
		}
	}
	return read.Do, entity
}
