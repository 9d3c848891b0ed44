//go:build ldap

package records

import (
	"sort"
	"strings"

	"github.com/go-ldap/ldap/v3"
)

// groups knows who is in which group, also by a group that is in it.
type groups struct {
	names map[string][]string // by the name of a group's entry
	above map[string][]string // of an entry, or of a name where groups have names as members: the groups that have it
}

// groups reads all groups, if the file says where they are.
func (d *directory) groups() (*groups, error) {
	of := d.of.Groups
	if of == nil {
		return nil, nil
	}
	found, err := d.search(of.Base, of.Filter, of.Member, of.Name)
	if err != nil {
		return nil, err
	}
	g := &groups{names: map[string][]string{}, above: map[string][]string{}}
	for _, one := range found {
		at := normal(one.DN)
		g.names[at] = append([]string(nil), one.GetEqualFoldAttributeValues(of.Name)...)
		for _, member := range one.GetEqualFoldAttributeValues(of.Member) {
			member = normal(member)
			g.above[member] = append(g.above[member], at)
		}
	}
	return g, nil
}

// of are the names of all groups that an entry is in, by whatever way. There may be circles.
func (g *groups) of(dn string, named []string) []string {
	waiting := []string{normal(dn)}
	for _, name := range named {
		waiting = append(waiting, normal(name))
	}
	seen := map[string]bool{}
	names := []string{}
	for len(waiting) > 0 {
		next := waiting[0]
		waiting = waiting[1:]
		for _, above := range g.above[next] {
			if !seen[above] {
				seen[above] = true
				names = append(names, g.names[above]...)
				waiting = append(waiting, above)
			}
		}
	}
	sort.Strings(names)
	return names
}

// normal is one spelling of a distinguished name: case, blanks and the order within a part make no difference. What is
// none stays as it is.
func normal(dn string) string {
	read, err := ldap.ParseDN(dn)
	if err != nil || !strings.Contains(dn, "=") {
		return dn
	}
	var parts []string
	for _, part := range read.RDNs {
		var pairs []string
		for _, pair := range part.Attributes {
			pairs = append(pairs, strings.ToLower(pair.Type)+"="+ldap.EscapeFilter(strings.ToLower(pair.Value)))
		}
		sort.Strings(pairs)
		parts = append(parts, strings.Join(pairs, "+"))
	}
	return strings.Join(parts, ",")
}
