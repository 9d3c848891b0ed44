package web

import (
	"net/http"
	"strings"

	"review-front/desk"
)

// deskPath begins the paths of the desk's files.
const deskPath = "/desk/"

// isDesk says whether a request is for a file of the desk, which tells nothing of what is held: who opens the page
// shows who he is by what it asks.
func isDesk(r *http.Request) bool {
	if r.Method != http.MethodGet && r.Method != http.MethodHead {
		return false
	}
	return strings.HasPrefix(r.URL.Path, deskPath) || r.URL.Path == "/" && wantsPage(r)
}

// wantsPage says whether somebody asks for a page to read, as a browser does.
func wantsPage(r *http.Request) bool {
	for _, field := range r.Header.Values("Accept") {
		for _, one := range strings.Split(field, ",") {
			kind, how, _ := strings.Cut(one, ";")
			if strings.EqualFold(strings.TrimSpace(kind), "text/html") && !isNever(how) {
				return true
			}
		}
	}
	return false
}

// isNever says whether the parameters of a media type say that it isn't to be sent.
func isNever(parameters string) bool {
	for _, one := range strings.Split(parameters, ";") {
		key, value, _ := strings.Cut(strings.TrimSpace(one), "=")
		if strings.EqualFold(key, "q") && strings.Trim(value, "0.") == "" && value != "" {
			return true
		}
	}
	return false
}

// deskFile sends a file of the desk.
func (s *Server) deskFile(w *answered, r *http.Request, keys map[string]string) {
	s.sendDesk(w, r, keys["file"])
}

// sendDesk sends a file of the desk by its name. Browsers ask again each time whether it is the one that they have, so
// that none shows the page of an older front.
func (s *Server) sendDesk(w *answered, r *http.Request, name string) {
	file, there := desk.Open(name)
	if !there {
		unknown().send(w)
		return
	}
	head := w.Header()
	head.Set("Cache-Control", "no-cache")
	head.Set("ETag", file.Tag)
	if r.Header.Get("If-None-Match") == file.Tag {
		w.WriteHeader(http.StatusNotModified)
		return
	}
	head.Set("Content-Type", file.Type)
	head.Set("Content-Security-Policy", desk.Policy)
	head.Set("X-Content-Type-Options", "nosniff")
	head.Set("Referrer-Policy", "no-referrer")
	// Who has gone isn't told.
	_, _ = w.Write(file.Content)
}
