package main

import (
	"context"
	"errors"
	"os"
	"sync/atomic"
	"testing"
	"time"

	"review-front/folder"
	"review-front/keeper"
	"review-front/ladder"
	"review-front/limits"
	"review-front/measure"
	"review-front/program"
	"review-front/sessions"
	"review-front/spool"
)

// kept is a keeper in this process whose edits come to the disk by something else.
func kept(t *testing.T, sync func(*os.File) error) *keeper.Keeper {
	t.Helper()
	path := t.TempDir()
	held, err := folder.Open(path)
	if err != nil {
		t.Fatal(err)
	}
	held.SyncBy(sync)
	k := keeper.New(keeper.Options{
		Command: program.Command{Path: theProgram(t), AttributeModules: 2, PolicyModules: 2, Limits: limits.Standard},
		Folder:  held, Meter: measure.New(), Queue: 16, Patience: time.Second, EndingTime: patient,
		Spool: spool.New(path, 1<<30), Kept: ladder.Bounds{Changes: 1 << 20}, MostSessions: 9,
	})
	ctx, cancel := context.WithCancel(context.Background())
	started, err := k.Start(ctx)
	if err != nil {
		t.Fatal(err)
	}
	ended := make(chan error, 1)
	go func() { ended <- started.Run(ctx) }()
	t.Cleanup(func() {
		cancel()
		if err := <-ended; err != nil {
			t.Error(err)
		}
		held.Close()
	})
	return k
}

// submitted is a line on its way.
func submitted(t *testing.T, k *keeper.Keeper, l string) <-chan keeper.Reply {
	t.Helper()
	call, err := keeper.Prepare([]byte(l), "a test", sessions.NewTable(9).NewClient())
	if err != nil {
		t.Fatal(err)
	}
	replies, err := k.Submit(context.Background(), call)
	if err != nil {
		t.Fatal(err)
	}
	return replies
}

// TestNothingBeforeTheDisk holds the disk up: the reply to an edit, and all behind it, don't leave before it is on
// disk, edits that come meanwhile go to the disk together, and what was asked before isn't held up.
func TestNothingBeforeTheDisk(t *testing.T) {
	asked, done := make(chan struct{}), make(chan error)
	k := kept(t, func(*os.File) error {
		asked <- struct{}{}
		return <-done
	})
	if reply := <-submitted(t, k, `{"do":"counts"}`); reply.Err != nil {
		t.Fatal(reply.Err)
	}
	first := submitted(t, k, `{"do":"person.add","name":"ann"}`)
	<-asked
	others := []<-chan keeper.Reply{
		first, submitted(t, k, `{"do":"table"}`), submitted(t, k, `{"do":"person.add","name":"ben"}`),
		submitted(t, k, `{"do":"counts"}`), submitted(t, k, `{"do":"person.add","name":"cal"}`),
	}
	time.Sleep(200 * time.Millisecond)
	for i, replies := range others {
		select {
		case reply := <-replies:
			t.Fatalf("reply %d left before the edit is on disk: %s", i, reply.Body)
		default:
		}
	}
	done <- nil
	for i := 0; i < 2; i++ {
		if reply := <-others[i]; reply.Err != nil {
			t.Fatal(reply.Err)
		}
	}
	// The other two come to the disk at once, if the program answered both meanwhile.
	ended := make(chan int)
	go func() {
		syncs := 0
		for range asked {
			done <- nil
			syncs++
		}
		ended <- syncs
	}()
	for _, replies := range others[2:] {
		if reply := <-replies; reply.Err != nil {
			t.Fatal(reply.Err)
		}
	}
	close(asked)
	t.Logf("two edits came to the disk by %d fsync", <-ended)
	if k.Serial() != 3 {
		t.Errorf("%d edits are accepted", k.Serial())
	}
}

// TestDiskFails lets the disk fail for a while: no reply that knows of the edit leaves, and it isn't there afterwards.
func TestDiskFails(t *testing.T) {
	var failing atomic.Bool
	k := kept(t, func(file *os.File) error {
		if failing.Load() {
			time.Sleep(100 * time.Millisecond)
			return errors.New("the disk fails")
		}
		return file.Sync()
	})
	<-submitted(t, k, `{"do":"person.add","name":"ann"}`)
	failing.Store(true)
	edit, table := submitted(t, k, `{"do":"person.add","name":"ben"}`), submitted(t, k, `{"do":"dump"}`)
	if reply := <-edit; reply.Err != keeper.ErrJournal {
		t.Errorf("the edit is answered %s, %v", reply.Body, reply.Err)
	}
	if reply := <-table; reply.Err == nil {
		t.Errorf("a reply that knows of the edit left: %s", reply.Body)
	}
	const want = `{"dump":["{\"do\":\"format\",\"version\":2}","{\"do\":\"person.add\",\"name\":\"ann\"}"]}`
	if reply := <-submitted(t, k, `{"do":"dump"}`); string(reply.Body) != want {
		t.Errorf("the dump is %s, %v", reply.Body, reply.Err)
	}
	if reply := <-submitted(t, k, `{"do":"person.add","name":"cal"}`); reply.Err != keeper.ErrJournal {
		t.Errorf("an edit while it fails is answered %s, %v", reply.Body, reply.Err)
	}
	failing.Store(false)
	eventually(t, "edits are accepted again", func() bool {
		reply := <-submitted(t, k, `{"do":"person.add","name":"dan"}`)
		return string(reply.Body) == `{"changes":0,"serial":2}`
	})
}
