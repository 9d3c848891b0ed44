package access

import (
	"bytes"
	"encoding/hex"
	"encoding/json"
	"errors"
	"fmt"
	"os"
	"strings"
	"unicode"
)

// user is somebody who is known, as a line of the file says it.
type user struct {
	Name        string              `json:"name"`
	Roles       []string            `json:"roles"`
	Token       string              `json:"token_sha256"`
	Certificate string              `json:"certificate"`
	Unix        string              `json:"unix"`
	Subject     string              `json:"subject"`
	Claim       map[string]string   `json:"claim"`
	Gives       *Gives              `json:"gives"`
	Claims      map[string][]string `json:"claims"` // what policies of rights see of him
	// Person is which listed person he is: her name, or behind `claim:` the claim of a token that has it.
	Person string `json:"person"`
	place  string // his line
	token  []byte
	may    map[string]bool
}

// line is a line of the file: a user, or a role with its commands.
type line struct {
	user
	Role     string   `json:"role"`
	Commands []string `json:"commands"`
}

// readUsers reads the file: a JSON object in each line; empty lines, and those that begin with #, say nothing.
func readUsers(path string) ([]user, error) {
	content, err := os.ReadFile(path)
	if err != nil {
		return nil, fmt.Errorf("who may what: %w", err)
	}
	known := map[string][]string{}
	for role, commands := range Roles {
		known[role] = commands
	}
	var users []user
	for number, written := range bytes.Split(content, []byte("\n")) {
		if written = bytes.TrimSpace(written); len(written) == 0 || written[0] == '#' {
			continue
		}
		one, err := readLine(written)
		if err == nil && one.Role != "" {
			err = addRole(known, one)
		} else if err == nil {
			err = one.user.settle(known)
			one.user.place = fmt.Sprintf("%s:%d", path, number+1)
			users = append(users, one.user)
		}
		if err != nil {
			return nil, fmt.Errorf("%s:%d: %w", path, number+1, err)
		}
	}
	return users, nil
}

// unknowable are the lines whose subject looks like a name that the file gives: nobody is known by them.
func unknowable(users []user, names map[string]bool) []string {
	var all []string
	for _, one := range users {
		if one.Subject != "" && names[looks(one.Subject)] {
			why := "%s: the subject %q is a name of the file too, so nobody is known by it"
			all = append(all, fmt.Sprintf(why, one.place, one.Subject))
		}
	}
	return all
}

// namesOf are the names that a file gives, as they look.
func namesOf(users []user) map[string]bool {
	names := map[string]bool{}
	for _, one := range users {
		if one.Name != "" {
			names[looks(one.Name)] = true
		}
	}
	return names
}

// looks is a name as a reader takes it: in one case, without blanks and what isn't seen.
func looks(name string) string {
	seen := func(r rune) rune {
		if unicode.IsSpace(r) || !unicode.IsPrint(r) {
			return -1
		}
		return r
	}
	return strings.ToLower(strings.ToUpper(strings.Map(seen, name)))
}

// readLine reads a line, in which each key has to be known.
func readLine(written []byte) (line, error) {
	var one line
	from := json.NewDecoder(bytes.NewReader(written))
	from.DisallowUnknownFields()
	if err := from.Decode(&one); err != nil {
		return one, err
	}
	if from.More() {
		return one, errors.New("something stands behind the object")
	}
	return one, nil
}

// addRole adds a role of the file.
func addRole(known map[string][]string, one line) error {
	if _, there := known[one.Role]; there {
		return fmt.Errorf("there is a role %q already", one.Role)
	}
	for _, command := range one.Commands {
		if !commands[command] {
			return fmt.Errorf("there is no command %q", command)
		}
	}
	known[one.Role] = one.Commands
	return nil
}

// settle sees that a user can be known in one way, and what he may.
func (u *user) settle(roles map[string][]string) error {
	ways := 0
	for _, there := range []bool{u.Token != "", u.Certificate != "", u.Unix != "", u.Subject != "", len(u.Claim) > 0} {
		if there {
			ways++
		}
	}
	if ways != 1 {
		return errors.New("one of token_sha256, certificate, unix, subject and claim says how somebody is known")
	}
	if isIssued := u.Subject != "" || len(u.Claim) > 0; isIssued == (u.Name != "") {
		return errors.New("who is known by a subject or a claim has the subject for a name, and everybody else one of his own")
	}
	if u.Claims != nil && u.Name == "" {
		return errors.New("who is known by a subject or a claim has the claims of his token")
	}
	if u.Name != "" && strings.HasPrefix(u.Person, inClaim) {
		return errors.New("who has no token of an issuer is a person by her name")
	}
	if u.Token != "" {
		token, err := hex.DecodeString(strings.ToLower(u.Token))
		if err != nil || len(token) != 32 {
			return errors.New("token_sha256 has 64 hexadecimal digits")
		}
		u.token = token
	}
	u.may = map[string]bool{}
	for _, role := range u.Roles {
		commands, there := roles[role]
		if !there {
			return fmt.Errorf("there is no role %q above", role)
		}
		for _, command := range commands {
			u.may[command] = true
		}
	}
	return nil
}

// identity is the user as one who asks.
func (u user) identity() *Identity {
	roles := map[string]bool{}
	for _, role := range u.Roles {
		roles[role] = true
	}
	return &Identity{Name: u.Name, Claims: u.Claims, Gives: u.Gives, Person: u.Person, may: u.may, roles: roles}
}

// inClaim begins which person somebody is that a claim says.
const inClaim = "claim:"

// personIn is which listed person somebody is who has such claims.
func (u user) personIn(claims map[string][]string) string {
	if !strings.HasPrefix(u.Person, inClaim) {
		return u.Person
	}
	if values := claims[strings.TrimPrefix(u.Person, inClaim)]; len(values) == 1 {
		return values[0]
	}
	return ""
}

// Knows says whether somebody may be known by a name, or is that person: whose names an issuer has isn't known here.
func (g *Gate) Knows(name string) bool {
	for _, u := range g.now.Load().users {
		if u.Name == name || u.Person == name || u.Subject == name || len(u.Claim) > 0 {
			return true
		}
	}
	return false
}

// isMeant says whether a user is meant by the claims of a token.
func (u user) isMeant(claims map[string][]string) bool {
	if u.Subject != "" {
		return has(claims["sub"], u.Subject)
	}
	for name, value := range u.Claim {
		if !has(claims[name], value) {
			return false
		}
	}
	return len(u.Claim) > 0
}

func has(all []string, one string) bool {
	for _, each := range all {
		if each == one {
			return true
		}
	}
	return false
}
