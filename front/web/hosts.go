package web

import (
	"net"
	"net/http"
	"net/url"
	"strings"
)

// host is a name, in lower case, and a port; without one it stands for each.
type host struct{ name, port string }

// Hosts has the hosts as which the front is asked. A page of another site may have its own name lead to the front's
// address: a browser takes the two for one site then, and the field `Host` alone tells.
type Hosts struct {
	served     map[host]bool
	named      bool // they were named by whoever started the front, so that pages of theirs may ask
	everywhere bool // the front listens at all addresses of the machine, and is asked as each
}

// NewHosts are those that are named, or else `localhost` and the address that is listened at, as it was written and
// as it is.
func NewHosts(named []string, written string, at net.Addr) *Hosts {
	h := &Hosts{served: map[host]bool{}, named: len(named) > 0}
	for _, name := range named {
		h.served[hostOf(name)] = true
	}
	if h.named {
		return h
	}
	h.served[host{name: "localhost"}] = true
	tcp, ok := at.(*net.TCPAddr)
	if h.everywhere = ok && tcp.IP.IsUnspecified(); h.everywhere {
		return h
	}
	h.served[host{name: hostOf(written).name}] = true
	if ok {
		h.served[host{name: tcp.IP.String()}] = true
	}
	return h
}

// serves says whether a request is for the front, by its field `Host` and by the address that it came to.
func (h *Hosts) serves(r *http.Request) bool {
	asked := hostOf(r.Host)
	if h.served[host{name: asked.name}] || h.served[asked] {
		return true
	}
	local, ok := r.Context().Value(http.LocalAddrContextKey).(*net.TCPAddr)
	return h.everywhere && ok && local.IP.Equal(net.ParseIP(asked.name))
}

// elsewhere says whether a browser asks for a page of another site. Where a server before the front says another host
// than the browser did, the page's host has to be one that was named.
func (h *Hosts) elsewhere(r *http.Request) bool {
	if r.Header.Get("Sec-Fetch-Site") == "cross-site" {
		return true
	}
	origin := r.Header.Get("Origin")
	if origin == "" {
		return false
	}
	from, err := url.Parse(origin)
	if err != nil || from.Host == "" {
		return true
	}
	return !strings.EqualFold(from.Host, r.Host) && !(h.named && h.served[hostOf(from.Host)])
}

// hostOf reads a host as a field says it, without the brackets around an address and the dot behind a name.
func hostOf(written string) host {
	name, port, err := net.SplitHostPort(written)
	if err != nil || strings.Trim(port, "0123456789") != "" {
		name, port = written, ""
		if strings.HasPrefix(name, "[") && strings.HasSuffix(name, "]") {
			name = name[1 : len(name)-1]
		}
	}
	return host{name: strings.TrimSuffix(strings.ToLower(name), "."), port: port}
}
