//go:build nats

package jetstream

import (
	"bufio"
	"encoding/json"
	"net"
	"net/url"
	"strings"
	"time"
)

// answers says whether a server of this name answers at one of the addresses at which the servers are reached. Each
// says its name before a client has said anything.
func (l *log) answers(server string) bool {
	found := make(chan bool)
	addresses := strings.Split(l.Servers, ",")
	for _, address := range addresses {
		go func(address string) { found <- nameAt(address) == server }(address)
	}
	is := false
	for range addresses {
		is = <-found || is
	}
	return is
}

// nameAt is the name of the server at an address, or nothing where none answers in time.
func nameAt(address string) string {
	at, err := url.Parse(strings.TrimSpace(address))
	if err != nil || at.Hostname() == "" {
		return ""
	}
	port := at.Port()
	if port == "" {
		port = "4222"
	}
	conn, err := net.DialTimeout("tcp", net.JoinHostPort(at.Hostname(), port), askTime)
	if err != nil {
		return ""
	}
	defer conn.Close()
	_ = conn.SetDeadline(time.Now().Add(askTime))
	said, err := bufio.NewReader(conn).ReadString('\n')
	if err != nil {
		return ""
	}
	var info struct {
		Name string `json:"server_name"`
	}
	_ = json.Unmarshal([]byte(strings.TrimPrefix(said, "INFO ")), &info)
	return info.Name
}
