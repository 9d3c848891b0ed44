package access

import (
	"encoding/base64"
	"encoding/json"
	"errors"
	"fmt"
	"strings"
	"time"
)

// skew is by how much the clock of an issuer may be ahead.
const skew = time.Minute

// ErrIssued says that a token isn't one of the issuer.
var ErrIssued = errors.New("the token isn't one of the issuer")

// issuer is whose tokens are taken: JSON Web Tokens (RFC 7519) that are signed by a key of its own.
type issuer struct {
	name     string
	audience string
	types    map[string]bool // those of its tokens, as typeOf has them; nothing: a token that tells none
	keys     []key
}

// usualTypes are those that tokens have which let somebody in, if none are named: others are for something else, as to
// log somebody out or to prove a key (RFC 8725, 3.11).
var usualTypes = []string{"", "JWT", "at+jwt"}

// readIssuer reads the keys of an issuer.
func readIssuer(options Options) (*issuer, error) {
	keys, err := readKeys(options.Keys)
	if err != nil {
		return nil, err
	}
	i := &issuer{name: options.Issuer, audience: options.Audience, types: map[string]bool{}, keys: keys}
	types := options.Types
	if len(types) == 0 {
		types = usualTypes
	}
	for _, one := range types {
		i.types[typeOf(one)] = true
	}
	return i, nil
}

// typeOf is a type of media as it is compared: in lower case, and without the `application/` that need not be written
// where nothing else has a slash (RFC 7515, 4.1.9).
func typeOf(written string) string {
	written = strings.ToLower(written)
	if short := strings.TrimPrefix(written, "application/"); !strings.Contains(short, "/") {
		return short
	}
	return written
}

// isOf says whether the head of a token tells a type that is taken, or none where that is.
func (i *issuer) isOf(head map[string]json.RawMessage) bool {
	written, there := head["typ"]
	if !there {
		return i.types[""]
	}
	told := textOf(written)
	return told != "" && i.types[typeOf(told)]
}

// verify reads the claims of a token that the issuer signed for this audience and this time, and until when it is so.
// By which algorithm it is signed the key says, and not the token.
func (i *issuer) verify(token string, now time.Time) (claims map[string][]string, until time.Time, err error) {
	parts := strings.Split(token, ".")
	if len(parts) != 3 {
		return nil, until, ErrIssued
	}
	if err := i.authentic(parts); err != nil {
		return nil, until, err
	}
	said, err := members(parts[1])
	if err != nil {
		return nil, until, err
	}
	return i.judge(said, now)
}

// authentic sees that the issuer signed the parts of a token.
func (i *issuer) authentic(parts []string) error {
	head, err := members(parts[0])
	if err != nil {
		return err
	}
	if _, there := head["crit"]; there {
		return fmt.Errorf("%w: it has a field crit, of which nothing is known", ErrIssued)
	}
	if !i.isOf(head) {
		return fmt.Errorf("%w: it is of a type that isn't taken", ErrIssued)
	}
	signature, err := decode(parts[2])
	if err != nil {
		return err
	}
	if !i.signed(textOf(head["alg"]), textOf(head["kid"]), parts[0]+"."+parts[1], signature) {
		return fmt.Errorf("%w: no key of it signed it", ErrIssued)
	}
	return nil
}

// signed says whether one of the keys signed a text by an algorithm.
func (i *issuer) signed(algorithm, id, text string, signature []byte) bool {
	for _, k := range i.keys {
		if (id == "" || k.id == "" || k.id == id) && k.algorithm == algorithm && k.signed([]byte(text), signature) {
			return true
		}
	}
	return false
}

// judge sees that claims are of the issuer, for the audience, and of this time (RFC 7519, 4.1).
func (i *issuer) judge(
	claims map[string]json.RawMessage, now time.Time,
) (texts map[string][]string, until time.Time, err error) {
	texts = map[string][]string{}
	for name, written := range claims {
		if some := textsOf(written); some != nil {
			texts[name] = some
		}
	}
	if len(texts["iss"]) != 1 || texts["iss"][0] != i.name {
		return nil, until, fmt.Errorf("%w: it is another one's", ErrIssued)
	}
	if !has(texts["aud"], i.audience) {
		return nil, until, fmt.Errorf("%w: it is for somebody else", ErrIssued)
	}
	if len(texts["sub"]) != 1 || texts["sub"][0] == "" {
		return nil, until, fmt.Errorf("%w: it has no subject", ErrIssued)
	}
	ends, ok := timeOf(claims["exp"])
	if !ok || !now.Before(ends) {
		return nil, until, fmt.Errorf("%w: its time is over", ErrIssued)
	}
	if begins, ok := timeOf(claims["nbf"]); claims["nbf"] != nil && (!ok || now.Add(skew).Before(begins)) {
		return nil, until, fmt.Errorf("%w: its time hasn't come", ErrIssued)
	}
	return texts, ends, nil
}

// decode reads base64url without padding.
func decode(part string) ([]byte, error) {
	read, err := base64.RawURLEncoding.Strict().DecodeString(part)
	if err != nil {
		return nil, fmt.Errorf("%w: a part can't be read", ErrIssued)
	}
	return read, nil
}

// members reads a part that is a JSON object. Its keys count as they are written.
func members(part string) (map[string]json.RawMessage, error) {
	read, err := decode(part)
	if err != nil {
		return nil, err
	}
	var object map[string]json.RawMessage
	if json.Unmarshal(read, &object) != nil || object == nil {
		return nil, fmt.Errorf("%w: a part isn't an object", ErrIssued)
	}
	return object, nil
}

// textOf is a text, or nothing.
func textOf(written json.RawMessage) string {
	var text string
	_ = json.Unmarshal(written, &text)
	return text
}

// textsOf is a text or a list of texts, or nil.
func textsOf(written json.RawMessage) []string {
	var text string
	if json.Unmarshal(written, &text) == nil {
		return []string{text}
	}
	var all []string
	if json.Unmarshal(written, &all) == nil {
		return all
	}
	return nil
}

// timeOf reads a number of seconds.
func timeOf(written json.RawMessage) (time.Time, bool) {
	var seconds float64
	if written == nil || json.Unmarshal(written, &seconds) != nil || seconds < 0 || seconds > 1e11 {
		return time.Time{}, false
	}
	return time.Unix(int64(seconds), 0), true
}
