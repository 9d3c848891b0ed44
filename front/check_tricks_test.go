package main

import (
	"fmt"
	"net/url"
	"path"
	"regexp"
	"strings"
)

// trick is a request that is to reach what the one whose it is mayn't, or to do what he mayn't.
type trick struct {
	method, target string
	fields         []string
}

// The spellings of two dots, and of a slash, that some server takes for these.
var (
	dotted = []string{
		"..", "%2e%2e", "%2E.", ".%2e", "%252e%252e", "..;", "..;x=y", "%2e%2e;", "..%00", "%c0%ae%c0%ae",
		"%u002e%u002e", "%EF%BC%8E%EF%BC%8E", "..%20", "...",
	}
	slashed = []string{"/", "%2f", "%2F", "%5c", "\\", "%252f", "//", "/;/", "%c0%af", "%EF%BC%8F", "/./"}
)

// tricks are more than 300.
func tricks() []trick {
	var all []trick
	for _, dots := range dotted {
		for _, slash := range slashed {
			all = append(all, trick{"GET", "/public" + slash + dots + slash + "accounts" + slash + "2", nil})
		}
		all = append(all, trick{"GET", "/accounts/1/" + dots + "/2", nil}, trick{"GET", "/public/" + dots + "/admin/x", nil},
			trick{"GET", "/accounts/" + dots + "/accounts/2", nil}, trick{"GET", "/" + dots + "/admin/x", nil})
	}
	for _, target := range []string{
		"//admin/x", "///admin/x", "/%2fadmin/x", "/./admin/x", "/;/admin/x", "/admin;/x", "/admin;a=b/x", "/admin%3b/x",
		"/ADMIN/x", "/Admin/x", "/aDmIn/x", "/admin./x", "/admin%20/x", "/admin%00/x", "/%61dmin/x", "/%2561dmin/x",
		"/admin/x/", "/admin/", "/admin", "/admin//", "/admin/x?y", "/admin%3fx", "/admin#x", "/admin%23x", "/admin.json",
		"/admin%09/x", "/admin\\x", "/admin%5cx", "/admin%2fx", "\\admin/x", "/admin%0d%0a/x", "/admin%E2%80%8B/x",
		"/accounts/1;/../2", "/accounts/1%2f..%2f2", "/accounts/%32", "/accounts/2%20", "/accounts/%202", "/accounts/02",
		"/accounts/2/", "/accounts/2.", "/accounts/2;x", "/accounts/2;/1", "/accounts/2.json", "/accounts/+2",
		"/accounts//2", "/ACCOUNTS/2", "/Accounts/2", "/accounts/2%00", "/accounts/2%001", "/accounts/2%0a",
		"/accounts/1%0a2",
		"/accounts/2?id=1", "/accounts/2#/../1", "/accounts/2%23/../1", "/accounts/2%3f/../1", "/accounts/2/../1",
		"/accounts/2/..;/1", "/accounts/1,2", "/accounts/%EF%BC%92", "/accounts\\2", "/accounts/1\\..\\2", "*", "admin/x",
		"http://app.example/admin/x", "http://app.example//admin/x", "http://app.example/public/../admin/x",
		"http://other.example/admin/x", "https://app.example/accounts/2", "//app.example/admin/x", "app.example:80",
		"/public/a/../../admin/x", "/public/%2e%2e%2fadmin%2fx", "/public/..%5cadmin%5cx", "/public/a;/../../admin/x",
	} {
		all = append(all, trick{"GET", target, nil})
	}
	for _, method := range []string{
		"get", "GeT", "POST", "PUT", "DELETE", "PATCH", "OPTIONS", "TRACE", "PROPFIND", "MOVE", "X", "HEAD\t", "CONNECT",
	} {
		all = append(all, trick{method, "/public/a", nil}, trick{method, "/accounts/2", nil})
	}
	for _, name := range []string{
		"X-HTTP-Method-Override", "X-HTTP-Method", "X-Method-Override", "x_http_method_override", "X_HTTP-Method",
		"X-HTTP_METHOD", "X-Original-URL", "X-Rewrite-URL", "X_Original_URL", "x-rewrite_url", "X-User", "X_User", "x_user",
		"X-Forwarded-Method", "X-Forwarded-Uri", "X_Forwarded_Uri", "X-Forwarded_Method",
	} {
		value := "DELETE"
		if strings.Contains(strings.ToLower(name), "ur") {
			value = "/admin/x"
		}
		all = append(all, trick{"GET", "/public/a", []string{name, value}},
			trick{"GET", "/public/a", []string{name, value, name, "/public/a"}},
			trick{"GET", "/accounts/2", []string{name, "/public/a", name, "GET"}},
			trick{"POST", "/public/a", []string{name, "GET"}})
	}
	for _, name := range []string{"X-User", "X-Forwarded-Uri", "X-Forwarded-Method", "Authorization", "Privacy-Record"} {
		all = append(all, trick{"GET", "/accounts/2", []string{"Connection", "close, " + name}},
			trick{"GET", "/public/a", []string{"Connection", "close, " + name, name, "/public/a"}})
	}
	for _, query := range []string{
		"_method=DELETE", "a=b&_method=DELETE", "a;_method=PUT", "%5fmethod=PUT", "_METHOD=PUT", "_method",
	} {
		all = append(all, trick{"GET", "/public/a?" + query, nil}, trick{"GET", "/accounts/1?" + query, nil})
	}
	return all
}

// allowed are the paths that ann may read.
var allowedPath = regexp.MustCompile(`^/(public/[^/]+(/[^/]+)*|accounts/1(/[^/]+)*)$`)

// evil says why what a server saw isn't what ann may do, in any way in which a server reads it; nothing where it is in
// all.
func evil(lines []string) string {
	words := strings.Split(lines[0], " ")
	if len(words) != 3 || words[0] != "GET" && words[0] != "HEAD" {
		return "another method"
	}
	target, query, _ := strings.Cut(words[1], "?")
	if key, _ := url.QueryUnescape(query); strings.Contains(strings.ToLower(key), "_method") {
		return "a method in the query"
	}
	for _, field := range []string{
		"X-Http-Method-Override", "X-Http-Method", "X-Method-Override", "X-Original-Url", "X-Rewrite-Url",
	} {
		if fieldOf(lines, field) != "" {
			return "a field " + field
		}
	}
	if user := fieldOf(lines, "X-User"); user != "ann" {
		return "the user " + user
	}
	for _, reading := range readings(target) {
		if !allowedPath.MatchString(reading) {
			return "it may be read as " + reading
		}
	}
	return ""
}

// readings are in which ways servers read a path.
func readings(target string) []string {
	all := []string{target}
	for text, times := target, 0; times < 3; times++ {
		next, err := url.PathUnescape(text)
		if err != nil {
			next = strings.NewReplacer("%2e", ".", "%2E", ".", "%2f", "/", "%2F", "/", "%5c", "\\", "%u002e", ".").Replace(text)
		}
		text = next
		all = append(all, text)
	}
	for _, text := range append([]string(nil), all...) {
		text = strings.NewReplacer("\\", "/", "\uff0f", "/", "\uff0e", ".", "\xc0\xae", ".", "\xc0\xaf", "/", "\u200b", "",
			"\uff12", "2").Replace(text)
		cut, _, _ := strings.Cut(text, "\x00")
		params := regexp.MustCompile(`;[^/]*`).ReplaceAllString(cut, "")
		for _, one := range []string{text, cut, params} {
			all = append(all, path.Clean("/"+one), strings.ToLower(path.Clean("/"+one)),
				regexp.MustCompile(`[. +]+(/|$)`).ReplaceAllString(path.Clean("/"+one), "$1"))
		}
	}
	return all
}

// tricked sends tricks, and looks at what came behind: nothing that the one who sent it isn't allowed, whichever way it
// is read.
func (p *proxy) tricked(u *upstream, all []trick) {
	p.t.Helper()
	passed, count := 0, map[int]int{}
	for i, one := range all {
		id := fmt.Sprint("trick ", i)
		status, _ := p.send(one.method, one.target, append([]string{"X-Trick", id, "Content-Length", "0"}, one.fields...)...)
		count[status]++
		saw := u.saw(id)
		if len(saw) == 0 {
			continue
		}
		passed++
		if why := evil(saw); why != "" {
			p.t.Errorf("%s %q %q is answered %d, and came as %q: %s", one.method, one.target, one.fields, status, saw, why)
		}
	}
	p.t.Logf("of %d requests %d came through, by status %v", len(all), passed, count)
	if len(all) < 300 || passed == 0 {
		p.t.Errorf("there are %d requests, of which %d came through", len(all), passed)
	}
}
