package main

import (
	"encoding/json"
	"fmt"
	"io"
	"math/rand"
	"net/http"
	"strings"
	"sync"
	"testing"
	"time"
)

// tries sends something, of which nobody may be there who answers.
func (f *front) tries(as, method, path, body string) (int, string) {
	asked, err := http.NewRequest(method, f.url(path), strings.NewReader(body))
	if err != nil {
		f.t.Fatal(err)
	}
	asked.Header.Set("Authorization", "Bearer "+tokenOf(as))
	answer, err := http.DefaultClient.Do(asked)
	if err != nil {
		return 0, ""
	}
	defer answer.Body.Close()
	said, err := io.ReadAll(answer.Body)
	if err != nil {
		return 0, ""
	}
	return answer.StatusCode, string(said)
}

// changingEdit is an edit by which answers of the clinic become others, and again what they were.
func changingEdit(random *rand.Rand) string {
	person := []string{"ada", "bruno", "chen", "dina", "emil", "fay", "gus", "hana"}[random.Intn(8)]
	switch random.Intn(8) {
	case 0:
		return fmt.Sprintf(`{"do":"person.drop","name":%q}`, person)
	case 1, 2:
		return fmt.Sprintf(`{"do":"person.add","name":%q}`, person)
	case 3:
		return fmt.Sprintf(`{"do":"day.set","day":"2025-0%d-01"}`, 1+random.Intn(4))
	case 4:
		word := []string{"surgery", "cardiology"}[random.Intn(2)]
		return fmt.Sprintf(`{"do":"attr.set","category":"AccessSubject","entity":%q,`+
			`"attribute":"department","type":"string","values":[%q]}`,
			person, word)
	}
	roles := []string{`"doctor"`, `"nurse"`, `"doctor","trainee"`, `"reception"`}[random.Intn(4)]
	return fmt.Sprintf(`{"do":"attr.set","category":"AccessSubject","entity":%q,`+
		`"attribute":"role","type":"string","values":[%s]}`,
		person, roles)
}

// signsFor signs at random what she is told, also what she was told a while ago.
type signsFor struct {
	random *rand.Rand
	made   map[uint64]string // what was answered 200, by serials
	counts map[int]int       // of all acts the statuses
	held   map[string]groupsOf
}

// act makes one act in one of some campaigns.
func (s *signsFor) act(f *front, names []string) {
	name := names[s.random.Intn(len(names))]
	if s.random.Intn(4) > 0 || len(s.held[name].Groups) == 0 {
		wanted := "count=1000&state=open&state=fell&state=kept&state=revoke"
		status, body := f.tries("rita", http.MethodGet, "/campaigns/"+name+"/items?"+wanted, "")
		var told groupsOf
		if status != http.StatusOK || json.Unmarshal([]byte(body), &told) != nil || len(told.Groups) == 0 {
			return
		}
		s.held[name] = told
	}
	told := s.held[name]
	do, more := "keep", ""
	switch s.random.Intn(8) {
	case 0:
		do, more = "revoke", `,"why":"she left"`
	case 1:
		do = "undo"
	}
	status, body := f.tries("rita", http.MethodPost, "/campaigns/"+name+"/"+do,
		actOn(s.random.Intn(len(told.Groups)), told, more))
	s.counts[status]++
	var taken struct{ Serial uint64 }
	if status == http.StatusOK && json.Unmarshal([]byte(body), &taken) == nil {
		s.made[taken.Serial] = `{"do":"campaign.` + do + `","campaign":"` + name + `"`
	}
}

// TestCampaignsModel has somebody sign while another edits, through kills of the front and of the program and starts:
// which sign-offs stand is what a model says that looks at the whole table behind each edit of the journal, and each
// act that was answered is in the journal.
func TestCampaignsModel(t *testing.T) {
	file, path := reviewing(t), t.TempDir()
	words := []string{"--access", file, "--snapshot-every", "300"}
	f := begin(t, path, words...)
	f.as(t, "boss", http.MethodPost, "/lines", strings.Join(clinic(t), "\n")+"\n")
	m, random := newReviewed(t), rand.New(rand.NewSource(int64(number("FRONT_SEED", 3))))
	s := &signsFor{random: random, made: map[uint64]string{}, counts: map[int]int{}, held: map[string]groupsOf{}}
	edits, acts := number("FRONT_CAMPAIGN_EDITS", 240), number("FRONT_CAMPAIGN_ACTS", 160)
	phases := number("FRONT_CAMPAIGN_PHASES", 8)
	var names []string
	for phase := 0; phase < phases; phase++ {
		if next := openingOf(phase); next != "" {
			if got := f.as(t, "boss", http.MethodPost, "/campaigns", next); got.status != http.StatusOK {
				t.Fatal(got)
			}
			names = append(names, fmt.Sprint("c", phase))
		}
		var both sync.WaitGroup
		both.Add(1)
		editor := rand.New(rand.NewSource(int64(phase)))
		go func(f *front) {
			defer both.Done()
			for i := 0; i < edits/phases; i++ {
				f.tries("editor", http.MethodPost, "/lines", changingEdit(editor))
			}
		}(f)
		for i := 0; i < acts/phases; i++ {
			if i == acts/phases/2 {
				f = broken(t, f, phase, path, words)
			}
			s.act(f, names)
		}
		both.Wait()
		m.follow(path)
		m.same(f)
	}
	for serial, begins := range s.made {
		if !strings.HasPrefix(m.records[serial], begins) {
			t.Errorf("serial %d was answered as %s, and is %q", serial, begins, m.records[serial])
		}
	}
	t.Logf("%d edits, %d acts: %v", m.own, len(m.records), s.counts)
	if s.counts[http.StatusOK] == 0 || s.counts[http.StatusConflict] == 0 {
		t.Errorf("acts were answered %v", s.counts)
	}
	f.stop()
	f = begin(t, path, words...)
	m.same(f)
}

// openingOf is the campaign that a phase opens, if it opens one.
func openingOf(phase int) string {
	name := fmt.Sprint("c", phase)
	switch phase {
	case 0:
		return opening(name, "rita", "")
	case 1:
		return opening(name, "rita", `,"on":"decision"`)
	case 4:
		return opening(name, "rita", `,"after":"c0"`)
	case 5:
		return opening(name, "rita", `,"on":"decision","after":"c1"`)
	case 6:
		return opening(name, "rita", `,"after":"c1"`)
	}
	return ""
}

// broken breaks something of a front, and gives the one that is there then.
func broken(t *testing.T, f *front, phase int, path string, words []string) *front {
	switch phase % 4 {
	case 1:
		f.kill()
		return begin(t, path, words...)
	case 2:
		before := len(f.programs())
		f.killProgram()
		eventually(t, "another program has the state", func() bool { return len(f.programs()) > before })
	case 3:
		f.stop()
		return begin(t, path, words...)
	}
	time.Sleep(time.Millisecond)
	return f
}
