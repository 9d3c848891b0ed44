//go:build ldap

package records

import (
	"testing"
	"time"

	"github.com/go-ldap/ldap/v3"
)

// TestKept knows entries again that changed some time ago: the stamp of others may stand for two changes.
func TestKept(t *testing.T) {
	now := time.Date(2026, 3, 1, 12, 0, 0, 0, time.UTC)
	for stamp, want := range map[string]bool{
		"20260301114900Z": true, "20260301115100Z": false, "20260301120500Z": false, "yesterday": false, "": false,
	} {
		kept := &Kept{entries: map[string]keptEntry{}}
		kept.keep(ldap.NewEntry("uid=a", map[string][]string{"entryuuid": {"1"}, "modifytimestamp": {stamp}}), Fields{}, now)
		if _, there := kept.entries["1"]; there != want {
			t.Errorf("an entry of %q is kept: %v", stamp, there)
		}
	}
}

// TestNormal takes spellings of one name as one.
func TestNormal(t *testing.T) {
	for _, one := range []string{
		"UID=Ann, DC=clinic,dc=Example", "uid=ann,dc=clinic,dc=example", `uid=\61nn,dc=clinic,dc=example`,
	} {
		if got := normal(one); got != "uid=ann,dc=clinic,dc=example" {
			t.Errorf("%s is %s", one, got)
		}
	}
	if normal("ann") != "ann" || normal("cn=a+sn=b") != normal("SN=B+CN=A") ||
		normal("cn=a,cn=b") == normal(`cn=a\,cn=b`) {
		t.Error("names are confused")
	}
}
