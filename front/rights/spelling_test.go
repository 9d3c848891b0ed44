package rights

import (
	"fmt"
	"math/rand"
	"sort"
	"strconv"
	"strings"

	"review-front/profile"
)

// spelling makes lines that say the same in many ways.
type spelling struct{ *rand.Rand }

// text spells a text as JSON: each byte may be escaped.
func (s spelling) text(text string) string {
	written := `"`
	for _, r := range text {
		switch {
		case s.Intn(12) == 0:
			written += fmt.Sprintf([]string{`\u%04x`, `\u%04X`}[s.Intn(2)], r)
		case r == '/' && s.Intn(2) == 0:
			written += `\/`
		case r == '"' || r == '\\':
			written += `\` + string(r)
		default:
			written += string(r)
		}
	}
	return written + `"`
}

// one is one of some texts.
func (s spelling) one(of ...string) string { return of[s.Intn(len(of))] }

// decoy is what may stand at a key before what counts.
func (s spelling) decoy(key string) string {
	return s.one(`7`, `null`, `{}`, `[]`, `""`, `"x"`, `true`, `{"Policy":7}`, `"AccessSubject"`, `"9"`, s.text(key))
}

// object writes members in any order, some of them with others of their key before them.
func (s spelling) object(members map[string]string) string {
	var keys []string
	for key := range members {
		keys = append(keys, key)
	}
	sort.Strings(keys)
	s.Shuffle(len(keys), func(i, j int) { keys[i], keys[j] = keys[j], keys[i] })
	var written []string
	for _, key := range keys {
		for s.Intn(6) == 0 {
			written = append(written, s.text(key)+s.blank()+":"+s.decoy(key))
		}
	}
	for _, key := range keys {
		written = append(written, s.text(key)+":"+s.blank()+members[key]+s.blank())
	}
	return s.blank() + "{" + strings.Join(written, ",") + "}" + s.blank()
}

func (s spelling) blank() string { return s.one("", "", "", " ", "\t", "\r", "  ") }

// version spells a version, of which the zeros before its numbers count for nothing.
func (s spelling) version(version string) string {
	numbers := strings.Split(version, ".")
	for at := range numbers {
		if numbers[at] != "*" && numbers[at] != "+" {
			numbers[at] = strings.Repeat("0", s.Intn(3)) + numbers[at]
		}
	}
	return s.text(strings.Join(numbers, "."))
}

// category spells one of the three categories.
func (s spelling) category(name string) string { return s.text(s.one(name, profile.CategoryOf(name))) }

// document writes a document, or a reference where it has no rules.
func (s spelling) document(of map[string]string, isReference bool) string {
	key := of["kind"]
	if isReference {
		key += "IdReference"
	}
	inner := map[string]string{documents[key].id: s.text(of["id"])}
	if of["version"] != "" {
		inner["Version"] = s.version(of["version"])
	}
	if !isReference {
		at := map[string]string{"Policy": "RuleCombiningAlgId", "PolicySet": "PolicyCombiningAlgId"}[key]
		inner[at] = s.text("urn:oasis:names:tc:xacml:3.0:" + map[string]string{"Policy": "rule", "PolicySet": "policy"}[key] +
			"-combining-algorithm:" + s.one("deny-overrides", "permit-overrides"))
	}
	written := s.object(inner)
	if s.Intn(6) == 0 {
		return "{" + s.text(key) + ":" + s.decoy(key) + "," + s.text(key) + ":" + written + "}"
	}
	return "{" + s.text(key) + ":" + written + "}"
}

// spelled is a line of a command, and what it says.
func (s spelling) spelled(word string, keys []string) (string, map[string]string) {
	name, told := s.one("ann", "ben", "été", "a/b", `q"`, "read", "plan"), map[string]string{"do": word, "module": "0"}
	members := map[string]string{"do": s.text(word)}
	if s.Intn(4) == 0 {
		members["session"] = strconv.Itoa(s.Intn(16))
	}
	for _, key := range keys {
		switch key {
		case "name", "entity", "person", "action", "resource", "attribute", "issuer", "rule":
			if key == "issuer" && s.Intn(2) == 0 || word == "cells" && s.Intn(2) == 0 {
				continue
			}
			told[key] = s.one(name, "ann", "read", "plan")
			members[key] = s.text(told[key])
		case "policy", "id":
			told[key] = s.one("p", "q", "r/s")
			members[key] = s.text(told[key])
		case "kind":
			told[key] = s.one("Policy", "PolicySet")
			members[key] = s.text(told[key])
		case "category":
			told[key] = s.one("AccessSubject", "Action", "Resource")
			members[key] = s.category(told[key])
		case "type":
			told[key] = profile.TypeOf(s.one("string", "anyURI"))
			members[key] = s.text(s.one(told[key], told[key][strings.Index(told[key], "#")+1:]))
		case "list":
			told[key] = s.one("people", "actions", "resources")
			members[key] = s.text(told[key])
		case "day":
			told[key] = fmt.Sprintf("2026-0%d-1%d", 1+s.Intn(9), s.Intn(9))
			members[key] = s.text(told[key] + s.one("", "Z"))
		case "moment":
			told[key] = fmt.Sprintf("2026-0%d-1%dT0%d:00:00", 1+s.Intn(9), s.Intn(9), s.Intn(9))
			members[key] = s.text(told[key] + s.one("", "Z"))
		case "module":
			if s.Intn(2) == 0 {
				told[key] = strconv.Itoa(s.Intn(2))
				members[key] = told[key]
			}
		case "document", "reference":
			told["kind"], told["id"] = s.one("Policy", "PolicySet"), s.one("p", "q", "r/s")
			told["version"] = s.one("1", "0", "1.0", "1.2", "10.0.3")
			if key == "reference" {
				told["version"] = s.one("", "1", "1.*", "+")
			}
			members[key] = s.document(told, key == "reference")
		case "version":
			if word == "policy.withdraw" {
				told[key] = s.one("1", "0", "1.0", "1.2", "10.0.3")
				members[key] = s.version(told[key])
			} else {
				members[key] = "2"
			}
		case "values":
			members[key] = s.one(`[]`, `["x"]`, `["x","y"]`, `["z"]`)
		case "decisions":
			members[key] = s.one(`["Deny"]`, `[]`)
		case "since", "from", "count":
			members[key] = "0"
		}
	}
	for key, value := range told {
		if value == "" {
			delete(told, key)
		}
	}
	return s.object(members), told
}
