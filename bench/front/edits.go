package main

import (
	"bytes"
	"fmt"
	"os"
	"sync"
	"time"
)

const (
	clients       = 16
	editsOfClient = 500
)

// edit is an edit that changes a value of a person.
func edit(client, number int) []byte {
	return []byte(fmt.Sprintf(`{"do":"attr.set","category":"AccessSubject","entity":%q,`+
		`"attribute":"number-%d","type":"integer","values":[%d]}`+"\n",
		people[number%len(people)], client, number))
}

// someEdits lets clients edit at once, each waiting for its reply, and says how many edits came to the disk together.
func (r run) someEdits() error {
	front, err := r.start(r.folder + "/edits")
	if err != nil {
		return err
	}
	defer front.stop(false)
	state, err := os.ReadFile(r.clinic)
	if err != nil {
		return err
	}
	if _, err := post(state); err != nil {
		return err
	}
	before, err := counted()
	if err != nil {
		return err
	}
	began := time.Now()
	var all sync.WaitGroup
	faults := make(chan error, clients)
	for client := 0; client < clients; client++ {
		all.Add(1)
		go func(client int) {
			defer all.Done()
			for i := 0; i < editsOfClient; i++ {
				if reply, err := post(edit(client, i)); err != nil || !bytes.HasPrefix(reply, []byte(`{"changes":`)) {
					faults <- fmt.Errorf("an edit is answered %s: %v", reply, err)
					return
				}
			}
		}(client)
	}
	all.Wait()
	took := time.Since(began)
	close(faults)
	if err := <-faults; err != nil {
		return err
	}
	after, err := counted()
	if err != nil {
		return err
	}
	edits, syncs := after[0]-before[0], after[1]-before[1]
	fmt.Printf("edits of %d clients       %8.0f a second, %.1f to one fsync\n", clients, edits/took.Seconds(), edits/syncs)
	return nil
}

// counted is how many edits there were, and how often they came to the disk.
func counted() ([2]float64, error) {
	edits, err := metric("review_front_edits_total")
	if err != nil {
		return [2]float64{}, err
	}
	syncs, err := metric("review_front_journal_syncs_total")
	return [2]float64{edits, syncs}, err
}

// starts measures how long a start takes behind many edits: from the journal alone, and with a snapshot.
func (r run) starts() error {
	folder := r.folder + "/starts"
	front, err := r.start(folder, "--snapshot-every", "0")
	if err != nil {
		return err
	}
	lines, err := os.ReadFile(r.clinic)
	if err != nil {
		return err
	}
	for i := 0; i < r.edits; i++ {
		lines = append(lines, edit(i%1000, i)...)
	}
	if _, err := post(lines); err != nil {
		return err
	}
	if err := front.stop(false); err != nil {
		return err
	}
	if front, err = r.start(folder, "--snapshot-every", "0"); err != nil {
		return err
	}
	fmt.Printf("start, %d edits       %8.3f s from the journal alone\n", r.edits, front.took.Seconds())
	if err := front.stop(true); err != nil {
		return err
	}
	if front, err = r.start(folder, "--snapshot-every", "0"); err != nil {
		return err
	}
	fmt.Printf("start, %d edits       %8.3f s with a snapshot\n", r.edits, front.took.Seconds())
	return front.stop(false)
}
