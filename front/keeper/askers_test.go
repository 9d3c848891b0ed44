package keeper

import (
	"context"
	"encoding/json"
	"fmt"
	"math/rand"
	"os"
	"strings"
	"sync"
	"testing"
	"time"

	"review-front/folder"
	"review-front/limits"
	"review-front/line"
	"review-front/logs"
	"review-front/measure"
	"review-front/program"
)

// logged writes what a keeper tells into the log of a test.
type logged struct{ testing.TB }

func (l logged) Write(b []byte) (int, error) {
	l.Logf("%s", b)
	return len(b), nil
}

// keeping is a keeper over a new folder, until the test ends.
func keeping(t testing.TB, more func(*Options)) *Keeper {
	t.Helper()
	path := os.Getenv("REVIEW_PROGRAM")
	if path == "" {
		t.Skip("REVIEW_PROGRAM names no program")
	}
	held, err := folder.Open(t.TempDir())
	if err != nil {
		t.Fatal(err)
	}
	var log *logs.Log
	if os.Getenv("FRONT_LOG") != "" {
		log = logs.New(logged{t})
	}
	options := Options{
		Command: program.Command{
			Path: path, AttributeModules: 2, PolicyModules: 2, Limits: limits.Standard, Faults: os.Stderr,
		},
		Folder: held, Log: log, Meter: measure.New(), Queue: 256, Patience: time.Minute, EndingTime: time.Minute,
	}
	more(&options)
	k := New(options)
	ctx, stop := context.WithCancel(context.Background())
	started, err := k.Start(ctx)
	if err != nil {
		t.Fatal(err)
	}
	ended := make(chan error)
	go func() { ended <- started.Run(ctx) }()
	t.Cleanup(func() {
		stop()
		if err := <-ended; err != nil {
			t.Error(err)
		}
		held.Close()
	})
	return k
}

// clinicOf is the lines of the clinic.
func clinicOf(t testing.TB) []string {
	t.Helper()
	content, err := os.ReadFile("../../examples/clinic/clinic.jsonl")
	if err != nil {
		t.Fatal(err)
	}
	return strings.Split(strings.TrimSpace(string(content)), "\n")
}

// edit sends a line, and is false where it isn't accepted.
func (k *Keeper) edit(t testing.TB, l string) bool {
	t.Helper()
	call, err := Prepare([]byte(l), "test", nil)
	if err != nil {
		t.Fatal(err)
	}
	reply := k.Send(context.Background(), call)
	if reply.Err != nil {
		t.Fatal(reply.Err)
	}
	_, ok := line.ReadAccepted(reply.Body)
	return ok
}

// withoutNames is the lines of a dump but those that list names.
func withoutNames(t testing.TB, reply Reply) string {
	t.Helper()
	var said struct{ Dump []string }
	if err := json.Unmarshal(reply.Body, &said); err != nil || len(said.Dump) == 0 {
		t.Fatalf("a dump is answered %s, %v", reply.Body, err)
	}
	var kept []string
	for _, l := range said.Dump {
		if !line.IsName([]byte(l)) {
			kept = append(kept, l)
		}
	}
	return strings.Join(kept, "\n")
}

// randomly is a line that edits the clinic, or is refused.
func randomly(random *rand.Rand, lines []string) string {
	if random.Intn(2) == 0 {
		return lines[random.Intn(len(lines))]
	}
	person := []string{"ada", "bruno", "hana", "nobody"}[random.Intn(4)]
	switch random.Intn(6) {
	case 0:
		return fmt.Sprintf(`{"do":"person.add","name":"extra-%d"}`, random.Intn(8))
	case 1:
		return fmt.Sprintf(`{"do":"person.drop","name":%q}`, person)
	case 2:
		return fmt.Sprintf(`{"do":"day.set","day":"2026-0%d-1%d"}`, 1+random.Intn(9), random.Intn(10))
	case 3:
		return fmt.Sprintf(`{"module":1,"do":"policy.add","document":{"Policy":{"PolicyId":"p%d","Version":"1","RuleCombiningAlgId":`+
			`"urn:oasis:names:tc:xacml:3.0:rule-combining-algorithm:deny-unless-permit"}}}`, random.Intn(8))
	case 4:
		return fmt.Sprintf(`{"module":1,"do":"policy.withdraw","kind":"Policy","id":"p%d","version":"1"}`, random.Intn(8))
	}
	return fmt.Sprintf(`{"do":"attr.set","category":"AccessSubject","entity":%q,"attribute":"role","type":"string","values":["%d"]}`,
		person, random.Intn(1000))
}

// TestDumps edits at random, and at many serials compares the dump of each asker, also of such that came later, with
// that of the table's program: it is the same but for names.
func TestDumps(t *testing.T) {
	k := keeping(t, func(o *Options) { o.Askers, o.SnapshotEvery = 2, 60 })
	lines := clinicOf(t)
	for _, l := range lines {
		k.edit(t, l)
	}
	random := rand.New(rand.NewSource(1))
	compared := map[uint64]bool{}
	for round := 0; round < 40; round++ {
		for edits := random.Intn(12); edits >= 0; edits-- {
			k.edit(t, randomly(random, lines))
		}
		if round%10 == 5 {
			k.askers.mutex.Lock()
			for a := range k.askers.all {
				a.Kill()
				break
			}
			k.askers.mutex.Unlock()
		}
		table := k.Ask(context.Background(), dumping)
		want := withoutNames(t, table)
		for ask := 0; ask < 4; ask++ {
			for until := time.Now().Add(time.Minute); k.Askers() == 0 && time.Now().Before(until); {
				time.Sleep(time.Millisecond)
			}
			got := k.Decide(context.Background(), dumping)
			if got.Err != nil || got.Serial != table.Serial {
				t.Fatalf("an asker's dump is of serial %d, %v, and the table's of %d", got.Serial, got.Err, table.Serial)
			}
			if withoutNames(t, got) != want {
				t.Fatalf("at serial %d an asker tells another dump:\n%s\n%s", table.Serial, withoutNames(t, got), want)
			}
		}
		compared[table.Serial] = true
	}
	if len(compared) < 30 {
		t.Errorf("dumps were compared at %d serials", len(compared))
	}
	t.Logf("compared at %d serials up to %d", len(compared), k.Serial())
}

// TestDecidesKnow has several ask as soon as their edits have their replies: each answer knows of its edit, also where
// the asker has requests of others to send.
func TestDecidesKnow(t *testing.T) {
	k := keeping(t, func(o *Options) { o.Askers = 1 })
	for until := time.Now().Add(time.Minute); k.Askers() == 0 && time.Now().Before(until); {
		time.Sleep(time.Millisecond)
	}
	var all sync.WaitGroup
	for editor := 0; editor < 8; editor++ {
		all.Add(1)
		go func(of string) {
			defer all.Done()
			for i := 0; i < 200 && !t.Failed(); i++ {
				k.edit(t, fmt.Sprintf(`{"do":"attr.set",%s,"attribute":"n","type":"integer","values":[%d]}`, of, i))
				reply := k.Decide(context.Background(), []byte(`{"do":"attributes",`+of+`}`))
				if reply.Err != nil || !strings.Contains(string(reply.Body), fmt.Sprintf(`"values":[%d]`, i)) {
					t.Errorf("behind edit %d it is answered %s of %d, %v", i+1, reply.Body, reply.Serial, reply.Err)
				}
			}
		}(fmt.Sprintf(`"category":"Action","entity":"x-%d"`, editor))
	}
	all.Wait()
}

// TestRun asks requests that are to be answered at one serial, while others edit and askers end.
func TestRun(t *testing.T) {
	k := keeping(t, func(o *Options) { o.Askers = 2 })
	stop := make(chan struct{})
	var all sync.WaitGroup
	all.Add(1)
	go func() {
		defer all.Done()
		for i := 0; ; i++ {
			select {
			case <-stop:
				return
			default:
				k.edit(t, fmt.Sprintf(`{"do":"attr.set","category":"Action","entity":"x","attribute":"n","type":"integer","values":[%d]}`, i))
			}
		}
	}()
	question := []byte(`{"do":"attributes","category":"Action","entity":"x"}`)
	for round := 0; round < 150; round++ {
		replies := k.DecideAll(context.Background(), [][]byte{question, question, question, question, question})
		for _, reply := range replies {
			if reply.Err != nil || reply.Serial != replies[0].Serial || string(reply.Body) != string(replies[0].Body) {
				t.Fatalf("one of a run is %s of %d, %v, and the first %s of %d", reply.Body, reply.Serial, reply.Err,
					replies[0].Body, replies[0].Serial)
			}
		}
	}
	close(stop)
	all.Wait()
}
