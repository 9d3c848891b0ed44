//go:build ldap

package records

import (
	"context"
	"crypto/tls"
	"crypto/x509"
	"fmt"
	"net/url"
	"os"
	"strings"
	"time"

	"github.com/go-ldap/ldap/v3"

	"review-front/source/form"
)

// WithLDAP says whether directories can be read.
const WithLDAP = true

const (
	uuidOf  = "entryUUID"
	stampOf = "modifyTimestamp"
	// settled is how old a change has to be so that an entry isn't read again: stamps have seconds, and clocks differ.
	settled = 10 * time.Minute
	// readAgain is how many entries are asked for by one search.
	readAgain = 100
	pageSize  = 500
)

// Kept is what a reading of a directory leaves for the next: the fields of entries, by entryUUID.
type Kept struct{ entries map[string]keptEntry }

type keptEntry struct {
	stamp  string
	fields Fields
}

// directory is a connection to a directory, to read one kind.
type directory struct {
	*ldap.Conn
	of     *form.LDAP
	fields []string
}

// readLDAP reads all entries. All that there are are looked at each time; attributes are read of those that changed.
func readLDAP(ctx context.Context, s *form.Source, kind *form.Kind, kept *Kept, to *reading) error {
	d, err := dial(ctx, s, kind)
	if err != nil {
		return err
	}
	done := make(chan struct{})
	defer close(done)
	go func() {
		select {
		case <-ctx.Done():
		case <-done:
		}
		d.Close()
	}()
	began := time.Now()
	entries, err := d.entries(kept, began)
	if err != nil {
		return fmt.Errorf("%s: %w", d.of.Address, err)
	}
	groups, err := d.groups()
	if err != nil {
		return fmt.Errorf("%s: groups: %w", d.of.Address, err)
	}
	for _, entry := range entries {
		fields := entry.fields
		if groups != nil {
			to.seen[d.of.Groups.As] = true
			fields = Fields{d.of.Groups.As: groups.of(entry.dn, fields[kind.Name.From])}
			for name, values := range entry.fields {
				fields[name] = values
			}
		}
		to.take(entry.dn, fields)
	}
	return nil
}

// dial connects, and says who asks.
func dial(ctx context.Context, s *form.Source, kind *form.Kind) (*directory, error) {
	d := &directory{of: kind.LDAP}
	settings := &tls.Config{MinVersion: tls.VersionTLS12}
	if at, err := url.Parse(d.of.Address); err == nil {
		settings.ServerName = at.Hostname()
	}
	if d.of.Authority != "" {
		written, err := os.ReadFile(s.Beside(d.of.Authority))
		if err != nil {
			return nil, err
		}
		settings.RootCAs = x509.NewCertPool()
		if !settings.RootCAs.AppendCertsFromPEM(written) {
			return nil, fmt.Errorf("%s has no certificate", d.of.Authority)
		}
	}
	password, err := secret(s, d.of.PasswordFile)
	if err != nil {
		return nil, err
	}
	if d.Conn, err = ldap.DialURL(d.of.Address, ldap.DialWithTLSConfig(settings)); err != nil {
		return nil, fmt.Errorf("%s: %w", d.of.Address, err)
	}
	if until, bounded := ctx.Deadline(); bounded {
		d.SetTimeout(time.Until(until))
	}
	if d.of.StartTLS {
		err = d.Conn.StartTLS(settings)
	}
	if err == nil && d.of.Bind != "" {
		err = d.Conn.Bind(d.of.Bind, password)
	}
	if err != nil {
		d.Close()
		return nil, fmt.Errorf("%s: %w", d.of.Address, err)
	}
	for field := range kind.Fields() {
		if d.of.Groups == nil || field != d.of.Groups.As {
			d.fields = append(d.fields, field)
		}
	}
	return d, nil
}

// search looks for all entries, by pages. Part of them is an error.
func (d *directory) search(base, filter string, fields ...string) ([]*ldap.Entry, error) {
	page := d.of.Page
	if page == 0 {
		page = pageSize
	}
	found, err := d.SearchWithPaging(ldap.NewSearchRequest(base, ldap.ScopeWholeSubtree, ldap.NeverDerefAliases,
		0, 0, false, filter, fields, nil), page)
	if err != nil {
		return nil, err
	}
	if len(found.Referrals) > 0 {
		return nil, fmt.Errorf("it refers to %s, which isn't followed: name another base", found.Referrals[0])
	}
	return found.Entries, nil
}

// entry is the fields of an entry.
type entry struct {
	dn     string
	fields Fields
}

// entries reads all, and keeps what may be known the next time.
func (d *directory) entries(kept *Kept, now time.Time) ([]entry, error) {
	if len(kept.entries) == 0 {
		found, err := d.search(d.of.Base, d.of.Filter, append([]string{uuidOf, stampOf}, d.fields...)...)
		if err != nil {
			return nil, err
		}
		all := make([]entry, len(found))
		kept.entries = map[string]keptEntry{}
		for i, one := range found {
			all[i] = entry{one.DN, d.fieldsOf(one)}
			kept.keep(one, all[i].fields, now)
		}
		return all, nil
	}
	found, err := d.search(d.of.Base, d.of.Filter, uuidOf, stampOf)
	if err != nil {
		return nil, err
	}
	return d.changed(found, kept, now)
}

// changed reads the attributes of those entries that aren't known as they are.
func (d *directory) changed(found []*ldap.Entry, kept *Kept, now time.Time) ([]entry, error) {
	var all []entry
	var others []string
	before := kept.entries
	kept.entries = map[string]keptEntry{}
	for _, one := range found {
		uuid := one.GetEqualFoldAttributeValue(uuidOf)
		if known, there := before[uuid]; there && known.stamp == one.GetEqualFoldAttributeValue(stampOf) {
			all = append(all, entry{one.DN, known.fields})
			kept.entries[uuid] = known
		} else if uuid == "" {
			kept.entries = nil // it can't be known again: all are read
			return d.entries(kept, now)
		} else {
			others = append(others, "("+uuidOf+"="+ldap.EscapeFilter(uuid)+")")
		}
	}
	for from := 0; from < len(others); from += readAgain {
		some := others[from:]
		if len(some) > readAgain {
			some = some[:readAgain]
		}
		// Who left meanwhile isn't found any more, and isn't there.
		again, err := d.search(d.of.Base, "(&"+d.of.Filter+"(|"+strings.Join(some, "")+"))",
			append([]string{uuidOf, stampOf}, d.fields...)...)
		if err != nil {
			kept.entries = nil
			return nil, err
		}
		for _, one := range again {
			fields := d.fieldsOf(one)
			all = append(all, entry{one.DN, fields})
			kept.keep(one, fields, now)
		}
	}
	return all, nil
}

// keep keeps an entry whose last change is some time ago.
func (k *Kept) keep(one *ldap.Entry, fields Fields, now time.Time) {
	uuid, stamp := one.GetEqualFoldAttributeValue(uuidOf), one.GetEqualFoldAttributeValue(stampOf)
	at, err := time.Parse("20060102150405Z0700", stamp)
	if uuid != "" && err == nil && now.Sub(at) > settled {
		k.entries[uuid] = keptEntry{stamp, fields}
	}
}

// fieldsOf are the fields of an entry that are looked at, whatever case their names have there.
func (d *directory) fieldsOf(one *ldap.Entry) Fields {
	fields := Fields{}
	for _, field := range d.fields {
		if values := one.GetEqualFoldAttributeValues(field); len(values) > 0 {
			fields[field] = append([]string(nil), values...)
		}
	}
	return fields
}
