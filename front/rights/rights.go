// Package rights has policies say who may send which line to the front: a second program, which holds these policies and
// nothing else, decides.
package rights

import (
	"bufio"
	"bytes"
	"encoding/json"
	"errors"
	"fmt"
	"os"
	"sync"
	"time"

	"review-front/line"
	"review-front/program"
)

// ErrUndecided says that there is no decision for now.
var ErrUndecided = errors.New("the program that decides who may what doesn't answer")

// Judge has a program decide. One line is decided at a time.
type Judge struct {
	command program.Command
	path    string
	time    time.Duration // how long a decision may take; 0: for ever
	mutex   sync.Mutex
	state   []byte // the lines of the state, as they were read last
	now     *program.Program
}

// Open starts the program with the lines of a state.
func Open(command program.Command, path string, time time.Duration) (*Judge, error) {
	j := &Judge{command: command, path: path, time: time}
	return j, j.Read()
}

// Read starts another program with the state as it is now. Where a line of it is refused the one before goes on.
func (j *Judge) Read() error {
	state, err := os.ReadFile(j.path)
	if err != nil {
		return fmt.Errorf("who may what: %w", err)
	}
	started, err := j.start(state)
	if err != nil {
		return err
	}
	j.mutex.Lock()
	defer j.mutex.Unlock()
	if j.now != nil {
		j.now.Discard()
	}
	j.state, j.now = state, started
	return nil
}

// Close ends the program.
func (j *Judge) Close() {
	j.mutex.Lock()
	defer j.mutex.Unlock()
	if j.now != nil {
		j.now.Discard()
		j.now = nil
	}
}

// start starts a program, which has to accept each line of a state.
func (j *Judge) start(state []byte) (*program.Program, error) {
	p, err := j.command.Start()
	if err != nil {
		return nil, err
	}
	lines := bufio.NewScanner(bytes.NewReader(state))
	lines.Buffer(nil, line.Limit+1)
	for number := 1; lines.Scan(); number++ {
		reply, err := j.exchange(p, lines.Bytes())
		if err == nil {
			if _, _, refused := line.ReadRefusal(reply); refused {
				err = fmt.Errorf("it is answered %s", reply)
			}
		}
		if err != nil {
			p.Discard()
			return nil, fmt.Errorf("%s:%d: %w", j.path, number, err)
		}
	}
	if err := lines.Err(); err != nil {
		p.Discard()
		return nil, fmt.Errorf("%s: %w", j.path, err)
	}
	return p, nil
}

// exchange sends a line, and waits for its reply for so long as it may take.
func (j *Judge) exchange(p *program.Program, l []byte) ([]byte, error) {
	if j.time > 0 {
		timer := time.AfterFunc(j.time, p.Kill)
		defer timer.Stop()
	}
	if err := p.Send(l); err != nil {
		return nil, err
	}
	if err := p.Flush(); err != nil {
		return nil, err
	}
	return p.Receive()
}

// May says whether the policies permit somebody a line. Every other decision refuses it.
func (j *Judge) May(who Subject, command string, l []byte) (bool, error) {
	asked, err := request(who, command, l)
	if err != nil {
		return false, err
	}
	j.mutex.Lock()
	defer j.mutex.Unlock()
	if j.now == nil {
		if j.now, err = j.start(j.state); err != nil {
			return false, ErrUndecided
		}
	}
	reply, err := j.exchange(j.now, asked)
	if err != nil {
		j.now.Discard()
		j.now = nil
		return false, ErrUndecided
	}
	var said struct {
		Response []struct{ Decision string }
	}
	if json.Unmarshal(reply, &said) != nil || len(said.Response) != 1 {
		return false, ErrUndecided
	}
	return said.Response[0].Decision == "Permit", nil
}
