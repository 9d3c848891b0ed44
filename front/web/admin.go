package web

import "net/http"

// administered are the paths for who looks after the front.
var administered = map[string]bool{"/healthz": true, "/readyz": true, "/metrics": true}

// Admin answers whether the front runs and is ready, and its counts, and nothing else. At an address of its own these
// are answered also while clients hold all connections.
func (s *Server) Admin(hosts *Hosts) http.Handler {
	return http.HandlerFunc(func(w http.ResponseWriter, r *http.Request) {
		switch {
		case !hosts.serves(r):
			misdirected().send(w)
		case !administered[r.URL.Path] || r.Method != http.MethodGet && r.Method != http.MethodHead:
			unknown().send(w)
		default:
			route, keys, _ := s.find(r.Method, []string{r.URL.Path[1:]})
			route.serve(&answered{ResponseWriter: w, time: s.WriteTime, last: &s.leaving}, r, keys)
		}
	})
}
