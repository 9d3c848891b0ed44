package web

import (
	"io"
	"net/http"
	"strconv"
)

// snapshotType is the type of a snapshot's file.
const snapshotType = "application/octet-stream"

// snapshot gives the file of the newest snapshot to another front of the same stream.
func (s *Server) snapshot(w *answered, r *http.Request, _ map[string]string) {
	file, err := s.Keeper.Folder.Newest()
	if err != nil {
		problemFor(err).send(w)
		return
	}
	if file == nil {
		problem{Title: "no snapshot", Status: http.StatusNotFound, Detail: "none was made yet"}.send(w)
		return
	}
	defer file.Close()
	w.Header().Set("Content-Type", snapshotType)
	if about, err := file.Stat(); err == nil {
		w.Header().Set("Content-Length", strconv.FormatInt(about.Size(), 10))
	}
	if r.Method == http.MethodHead {
		w.WriteHeader(http.StatusOK)
		return
	}
	// Who has gone isn't told.
	_, _ = io.Copy(w, file)
}

// keysKnown gives what is remembered of bodies with keys to another front of the same stream.
func (s *Server) keysKnown(w *answered, r *http.Request, _ map[string]string) {
	content, err := s.Keeper.Keys.Content()
	if err != nil {
		problemFor(err).send(w)
		return
	}
	w.Header().Set("Content-Type", snapshotType)
	w.Header().Set("Content-Length", strconv.Itoa(len(content)))
	if r.Method == http.MethodHead {
		w.WriteHeader(http.StatusOK)
		return
	}
	// Who has gone isn't told.
	_, _ = w.Write(content)
}

// campaignsKnown gives what is known of campaigns to another front of the same stream: as of the last edit, so that it
// knows no less than any snapshot that there was.
func (s *Server) campaignsKnown(w *answered, r *http.Request, _ map[string]string) {
	if !s.follow(w, r) {
		return
	}
	content, err := s.Keeper.Campaigns.Content()
	if err != nil {
		problemFor(err).send(w)
		return
	}
	w.Header().Set("Content-Type", snapshotType)
	w.Header().Set("Content-Length", strconv.Itoa(len(content)))
	if r.Method == http.MethodHead {
		w.WriteHeader(http.StatusOK)
		return
	}
	// Who has gone isn't told.
	_, _ = w.Write(content)
}
