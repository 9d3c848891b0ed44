package line

import (
	"encoding/json"
	"unicode/utf8"
)

// Do is the command of a line as the program reads it. It is false where the line isn't one JSON object in UTF-8 with a
// text at `do`, which the program refuses.
func Do(l []byte) (string, bool) {
	if !utf8.Valid(l) || !json.Valid(l) {
		return "", false
	}
	read, ok := keys(l)
	return read.do, ok
}
