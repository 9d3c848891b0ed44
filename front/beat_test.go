package main

import (
	"bufio"
	"net/http"
	"net/http/httptest"
	"os"
	"testing"
	"time"

	"review-front/measure"
	"review-front/web"
)

// TestBeat listens while nothing is edited: something is heard again and again, and it is no event.
func TestBeat(t *testing.T) {
	if web.Beat > time.Minute {
		t.Errorf("a listener hears nothing for %v", web.Beat)
	}
	site := httptest.NewServer(web.New(web.Options{
		Keeper: kept(t, (*os.File).Sync), Meter: measure.New(), Hosts: web.NewHosts([]string{"127.0.0.1"}, "", nil),
		Beat: 20 * time.Millisecond,
	}))
	defer site.Close()
	answer, err := http.Get(site.URL + "/notices")
	if err != nil {
		t.Fatal(err)
	}
	defer answer.Body.Close()
	late := time.AfterFunc(10*time.Second, func() { answer.Body.Close() })
	defer late.Stop()
	heard := bufio.NewScanner(answer.Body)
	for beats := 0; beats < 3; {
		if !heard.Scan() {
			t.Fatalf("%d beats are heard: %v", beats, heard.Err())
		}
		if heard.Text() == ":" {
			beats++
		}
	}
}
