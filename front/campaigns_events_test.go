package main

import (
	"bufio"
	"fmt"
	"net/http"
	"os"
	"path/filepath"
	"strings"
	"testing"
	"time"
)

// hearsOf listens to what happens to a campaign behind a serial, and gives the words of events, each with its serial.
func (f *front) hearsOf(t testing.TB, as, campaign, last string) <-chan string {
	t.Helper()
	asked, err := http.NewRequest(http.MethodGet, f.url("/campaigns/"+campaign+"/events"), nil)
	if err != nil {
		t.Fatal(err)
	}
	asked.Header.Set("Authorization", "Bearer "+tokenOf(as))
	asked.Header.Set("Last-Event-ID", last)
	answer, err := http.DefaultClient.Do(asked)
	if err != nil || answer.StatusCode != http.StatusOK {
		t.Fatal(answer, err)
	}
	t.Cleanup(func() { answer.Body.Close() })
	heard := make(chan string, 100)
	go func() {
		defer close(heard)
		word := ""
		for lines := bufio.NewScanner(answer.Body); lines.Scan(); {
			if kind, is := cutPrefix(lines.Text(), "event: "); is {
				word = kind
			} else if id, is := cutPrefix(lines.Text(), "id: "); is {
				heard <- word + " " + id
			}
		}
	}()
	return heard
}

// cutPrefix is what stands behind a prefix.
func cutPrefix(text, prefix string) (string, bool) {
	return strings.TrimPrefix(text, prefix), strings.HasPrefix(text, prefix)
}

// TestCampaignEvents listens to a campaign from its opening on, and behind an event: it is opened, reminded of, signed,
// falls and ends, and a command is told of the first two and the last. A reminder comes once, also over a start.
func TestCampaignEvents(t *testing.T) {
	said := filepath.Join(t.TempDir(), "said")
	access, path := reviewing(t), t.TempDir()
	words := []string{"--access", access, "--campaign-command", "cat >> " + said}
	f := begin(t, path, words...)
	f.as(t, "boss", http.MethodPost, "/lines", strings.Join(clinic(t), "\n")+"\n")
	now := time.Now().UTC()
	more := fmt.Sprintf(`,"ends":%q,"remind":[%q,%q]`, now.AddDate(0, 0, 30).Format("2006-01-02"),
		now.Format("2006-01-02"), now.AddDate(0, 0, 20).Format("2006-01-02"))
	if got := f.as(t, "boss", http.MethodPost, "/campaigns", opening("q4", "rita", more)); got.status != 200 {
		t.Fatal(got)
	}
	heard := f.hearsOf(t, "rita", "q4", "")
	next := func(want string) {
		t.Helper()
		select {
		case got := <-heard:
			if got != want {
				t.Errorf("%q is heard, and was to be %q", got, want)
			}
		case <-time.After(patient):
			t.Fatalf("%s isn't heard", want)
		}
	}
	next("opened 70")
	next("reminder 71")
	told := f.items(t, "rita", "q4", "")
	f.as(t, "rita", http.MethodPost, "/campaigns/q4/keep", actOn(0, told, ""))
	next("kept 72")
	f.as(t, "editor", http.MethodPost, "/lines", setRole(told.Groups[0].Person, "nobody"))
	next("fell 73")
	eventually(t, "the command is told twice", func() bool {
		all, _ := os.ReadFile(said)
		return strings.Count(string(all), "\n") == 2
	})
	f.stop()
	f = begin(t, path, words...)
	heard = f.hearsOf(t, "rita", "q4", "71")
	next("kept 72")
	next("fell 73")
	if got := f.as(t, "boss", http.MethodPost, "/campaigns/q4/close", ""); got.status != 200 {
		t.Fatal(got)
	}
	next("ended 74")
	var all []byte
	eventually(t, "the command is told of the end", func() bool {
		all, _ = os.ReadFile(said)
		return strings.Count(string(all), "\n") == 3
	})
	// (each by itself: where two come at once, either may be first)
	for _, has := range []string{`"event":"opened"`, `"open":{"rita":92}`, `"event":"ended"`} {
		if !strings.Contains(string(all), has) {
			t.Errorf("the command is told %s, without %s", all, has)
		}
	}
}

// TestCampaignEnds has days come: of one that is over nobody signs any more, and the front ends the campaign.
func TestCampaignEnds(t *testing.T) {
	f, _ := campaignsOpened(t, reviewing(t), "", "--oldest", "30d")
	for _, one := range [][2]string{{"", `"oldest":"30d"`}, {`,"oldest":"7d"`, `"oldest":"7d"`}} {
		name := fmt.Sprint("after", len(one[0]))
		f.as(t, "boss", http.MethodPost, "/campaigns", opening(name, "rita", `,"after":"q4"`+one[0]))
		if got := f.as(t, "boss", http.MethodGet, "/campaigns/"+name, ""); !strings.Contains(got.body, one[1]) {
			t.Errorf("a campaign is told as %.300s, without %s", got.body, one[1])
		}
	}
	none := begin(t, t.TempDir(), "--access", reviewing(t), "--keep-history", "-1s")
	if got := none.as(t, "boss", http.MethodPost, "/campaigns", opening("x", "rita",
		"")); got.status != http.StatusNotImplemented {
		t.Errorf("without what edits changed a campaign is opened: %+v", got)
	}
	day := time.Now().UTC().AddDate(0, 0, -1).Format("2006-01-02")
	got := f.as(t, "boss", http.MethodPost, "/campaigns", opening("past", "rita", fmt.Sprintf(`,"ends":%q`, day)))
	if got.status != http.StatusUnprocessableEntity {
		t.Errorf("a campaign that has ended is opened: %+v", got)
	}
	for body, why := range map[string]string{
		`{"name":"x","scope":{}}`:                                                  "the last reviewer",
		`{"name":"x y","scope":{},"reviewers":[{"name":"rita"}]}`:                  "a name has",
		`{"name":"x","scope":{},"reviewers":[{"person":"manager"}]}`:               "the last reviewer",
		`{"name":"x","scope":{},"reviewers":[{"name":"rita"}],"y":1}`:              "unknown field",
		opening("x", "rita", `,"on":"nothing"`):                                    "on is answer",
		opening("x", "rita", `,"ends":"soon"`):                                     "is no day",
		opening("x", "rita", `,"oldest":"1d"`):                                     "beside after",
		opening("x", "rita", `,"after":"nothing"`):                                 "no campaign",
		opening("q4", "rita", ""):                                                  "there is a campaign",
		opening("x", "rita", `,"scope":{"people":{"names":["nobody"]}}`):           "no cell",
		`{"name":"x","scope":{"decisions":["Yes"]},"reviewers":[{"name":"rita"}]}`: "no decision",
	} {
		if got := f.as(t, "boss", http.MethodPost, "/campaigns", body); got.status == 200 || !strings.Contains(got.body,
			why) {
			t.Errorf("%s is answered %+v, without %q", body, got, why)
		}
	}
}
