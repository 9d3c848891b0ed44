// Package access knows who asks the front, and what he may: by a token, the token of an issuer, a certificate, or the user
// of a Unix socket, and by roles, which are sets of commands.
package access

import (
	"crypto/sha256"
	"crypto/subtle"
	"errors"
	"net/http"
	"strings"
	"sync/atomic"
	"time"
)

// Options is where it is read who may what.
type Options struct {
	File     string // those who are known, and roles of their own
	Issuer   string // whose tokens are taken, as their claim `iss` has it; none where it is empty
	Keys     string // the file with its keys, as a set of JSON Web Keys
	Audience string // for whom its tokens are, as their claim `aud` has it
	// Types are those that its tokens have to have, as their field `typ` has it; none: JWT and at+jwt, or they have none.
	Types []string
}

// Identity is who asks.
type Identity struct {
	Name   string              // as it is written down
	Claims map[string][]string // what is known of him, as the token of an issuer says it
	Gives  *Gives              // what his requests may say; nil: everything
	Until  time.Time           // when the time of his token is over; zero: it has none
	Person string              // which listed person he is, if that is known
	may    map[string]bool
	roles  map[string]bool
}

// Roles are those that he has.
func (i *Identity) Roles() []string {
	roles := []string{}
	for role := range i.roles {
		roles = append(roles, role)
	}
	return roles
}

// May says whether he may send a command, or ask for what stands under such a word.
func (i *Identity) May(command string) bool { return i.may[command] }

// MayNothing says whether he may send no command at all.
func (i *Identity) MayNothing() bool { return len(i.may) == 0 }

// Way is how somebody shows who he is.
type Way struct {
	Certificate string // the name in his certificate, or nothing
	User        string // the user at the other end of a Unix socket, or nothing
}

// The reasons why somebody isn't known.
var (
	ErrNobody = errors.New("nothing says who asks")
	ErrTwice  = errors.New("the field Authorization stands more than once")
	ErrScheme = errors.New("the field Authorization has no bearer token")
	ErrToken  = errors.New("the token isn't known")
	ErrName   = errors.New("the name isn't known")
	ErrTaken  = errors.New("the subject of the token is a name of the front's own")
)

// Gate knows who may what, as it was read last.
type Gate struct {
	options Options
	now     atomic.Pointer[known]
	slow    *slowing
}

// known is what was read.
type known struct {
	users  []user
	names  map[string]bool // those that the file gives, as they look
	issuer *issuer
}

// Open reads who may what.
func Open(options Options) (*Gate, error) {
	g := &Gate{options: options, slow: newSlowing()}
	take, err := g.Read()
	if err != nil {
		return g, err
	}
	take()
	return g, nil
}

// Read reads it again, and gives what has it count. Until that is called, and where reading fails, what was read before
// stays.
func (g *Gate) Read() (take func(), err error) {
	users, err := readUsers(g.options.File)
	if err != nil {
		return nil, err
	}
	read := &known{users: users, names: namesOf(users)}
	if g.options.Issuer != "" {
		if read.issuer, err = readIssuer(g.options); err != nil {
			return nil, err
		}
	}
	return func() { g.now.Store(read) }, nil
}

// Unknowable tells the lines of the file, as it was read last, by which nobody is known.
func (g *Gate) Unknowable() []string {
	now := g.now.Load()
	return unknowable(now.users, now.names)
}

// Of says who asks: by his token if he has one, else by his certificate, and else by his user.
func (g *Gate) Of(head http.Header, way Way) (*Identity, error) {
	now := g.now.Load()
	given := head["Authorization"]
	switch {
	case len(given) > 1:
		return nil, ErrTwice
	case len(given) == 1:
		return now.byToken(given[0])
	case way.Certificate != "":
		return now.named(func(u user) bool { return u.Certificate == way.Certificate })
	case way.User != "":
		return now.named(func(u user) bool { return u.Unix == way.User })
	}
	return nil, ErrNobody
}

// ErrIssuer says that no issuer's tokens are taken.
var ErrIssuer = errors.New("no issuer of tokens is known")

// Claims are those of a token that the issuer signed, whoever it names: he need not be known here.
func (g *Gate) Claims(token string) (map[string][]string, error) {
	now := g.now.Load()
	if now.issuer == nil {
		return nil, ErrIssuer
	}
	claims, _, err := now.issuer.verify(token, time.Now())
	return claims, err
}

// byToken is who has a token: one that is known, or one of the issuer.
func (k *known) byToken(field string) (*Identity, error) {
	scheme, token, ok := strings.Cut(field, " ")
	token = strings.TrimSpace(token)
	if !ok || !strings.EqualFold(scheme, "Bearer") || token == "" {
		return nil, ErrScheme
	}
	if k.issuer != nil && strings.Count(token, ".") == 2 {
		claims, until, err := k.issuer.verify(token, time.Now())
		if err != nil {
			return nil, err
		}
		return k.byClaims(claims, until)
	}
	sum, found := sha256.Sum256([]byte(token)), -1
	for i, u := range k.users {
		// Each is looked at, so that the time tells nothing of the others.
		if len(u.token) == len(sum) && subtle.ConstantTimeCompare(u.token, sum[:]) == 1 {
			found = i
		}
	}
	if found < 0 {
		return nil, ErrToken
	}
	return k.users[found].identity(), nil
}

// named is who is known by a name that he can't choose.
func (k *known) named(is func(user) bool) (*Identity, error) {
	for _, u := range k.users {
		if is(u) {
			return u.identity(), nil
		}
	}
	return nil, ErrName
}

// byClaims is who has a token of the issuer until some time: he may what each does who is known by his subject or a
// claim, and his requests may say what each of these may give. Nobody is he whose subject looks like a name that the file
// gives somebody else: what he did would be written down under that.
func (k *known) byClaims(claims map[string][]string, until time.Time) (*Identity, error) {
	if k.names[looks(claims["sub"][0])] {
		return nil, ErrTaken
	}
	who := &Identity{
		Name: claims["sub"][0], Claims: claims, Until: until, may: map[string]bool{}, roles: map[string]bool{},
	}
	found := false
	for _, u := range k.users {
		if !u.isMeant(claims) {
			continue
		}
		for command := range u.may {
			who.may[command] = true
		}
		for _, role := range u.Roles {
			who.roles[role] = true
		}
		if who.Person == "" {
			who.Person = u.personIn(claims)
		}
		if !found {
			who.Gives = u.Gives
		} else {
			who.Gives = who.Gives.and(u.Gives)
		}
		found = true
	}
	if !found {
		return nil, ErrName
	}
	return who, nil
}

// Refused says how long somebody who isn't known waits for his answer, by his address, and is false where he isn't
// answered at all for now.
func (g *Gate) Refused(address string) (time.Duration, bool) { return g.slow.next(address, time.Now()) }
