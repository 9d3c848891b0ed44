package main

import (
	"fmt"
	"net/http"
	"os"
	"sync"
	"testing"
	"time"
)

// madeAll makes so many users, several at a time, and gives their ids.
func (f *front) madeAll(t testing.TB, count int) []string {
	t.Helper()
	ids := make([]string, count)
	var all sync.WaitGroup
	failed := make(chan string, 16)
	for w := 0; w < 16; w++ {
		all.Add(1)
		go func(from int) {
			defer all.Done()
			for at := from; at < count; at += 16 {
				body := aUser(fmt.Sprintf("u%05d", at), fmt.Sprintf(`,"displayName":"User %d","active":true,
					"name":{"givenName":"G%d","familyName":"F%d"}`, at, at%100, at%1000))
				got, err := f.tryScim(http.MethodPost, "/Users", body)
				if id, is := got.body["id"].(string); err == nil && is {
					ids[at] = id
					continue
				}
				failed <- fmt.Sprintf("%d %.200s %v", got.status, got.text, err)
				return
			}
		}(w)
	}
	all.Wait()
	select {
	case what := <-failed:
		t.Fatal(what)
	default:
	}
	return ids
}

// TestScimMany has many users, lists and changes them; the times are logged. FRONT_SCIM_MANY says how many: with 50,000
// each is to take less than 50 ms, of a processor that has nothing else to do.
func TestScimMany(t *testing.T) {
	count := number("FRONT_SCIM_MANY", 1000)
	path := os.Getenv("FRONT_SCIM_FOLDER")
	if path == "" {
		path = t.TempDir()
	}
	f := provisioned(t, path, "--people", fmt.Sprint(count+10), "--cells", fmt.Sprint(count+100), "--patience", "60s",
		"--snapshot-every", "100000", "--replay-time", "0")
	began := time.Now()
	ids := f.madeAll(t, count)
	t.Logf("%d users were made in %v", count, time.Since(began).Round(time.Millisecond))
	serial := f.metric("review_front_serial")
	eventually(t, "it is known what the edits changed", func() bool {
		status, _ := f.get(fmt.Sprintf("/changes?since=%d", int(serial)))
		return status == http.StatusOK
	})
	t.Logf("it was known what the edits changed after %v", time.Since(began).Round(time.Millisecond))
	group := f.made(t, "/Groups", `{"displayName":"one"}`)
	for _, one := range []struct{ what, method, path, body string }{
		{"the first page", "GET", "/Users?count=100", ""},
		{"a page in the middle", "GET", fmt.Sprintf("/Users?startIndex=%d&count=100", count/2), ""},
		{"one by its name", "GET", "/Users?filter=userName+eq+%22U00007%22", ""},
		{"by a part of a name", "GET", "/Users?filter=name.familyName+eq+%22f77%22&count=100", ""},
		{"by and, or and not", "GET", "/Users?filter=not+(active+eq+false)+and+(displayName+co+%22999%22+or+" +
			"name.givenName+sw+%22g42%22)&count=100", ""},
		{"sorted", "GET", "/Users?sortBy=name.familyName&count=100", ""},
		{"one", "GET", "/Users/" + ids[count/2], ""},
		{"a change", "PATCH", "/Users/" + ids[count/2], with(`{"op":"replace","path":"title","value":"Dr"}`)},
		{"a change of rows", "PATCH", "/Users/" + ids[count/3], with(`{"op":"add","path":"roles","value":"nurse"}`)},
		{"a member", "PATCH", "/Groups/" + group, with(`{"op":"add","path":"members","value":[{"value":"` + ids[5] + `"}]}`)},
	} {
		best := time.Hour
		for try := 0; try < 5; try++ {
			began := time.Now()
			got := f.scim(t, one.method, one.path, one.body)
			if took := time.Since(began); took < best {
				best = took
			}
			if got.status >= 300 {
				t.Fatalf("%s: %d %s", one.what, got.status, got.text)
			}
			if try == 0 && one.method == "PATCH" { // what is so already is changed no more
				best = time.Since(began)
				break
			}
		}
		t.Logf("%s: %v", one.what, best.Round(10*time.Microsecond))
	}
	began = time.Now()
	f.stop()
	t.Logf("the end, with a snapshot: %v", time.Since(began).Round(time.Millisecond))
	began = time.Now()
	f = provisioned(t, f.folder, "--people", fmt.Sprint(count+10), "--cells", fmt.Sprint(count+100))
	t.Logf("the next start: %v", time.Since(began).Round(time.Millisecond))
	if got := f.scim(t, "GET", "/Users?count=0", ""); got.body["totalResults"] != float64(count) {
		t.Errorf("behind a start there are %s", got.text)
	}
	if got := f.rowsOf(t, fmt.Sprintf("u%05d", count/3)); got != "role=[nurse]" {
		t.Errorf("behind a start there are the rows %q", got)
	}
}
