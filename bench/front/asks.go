package main

import (
	"bufio"
	"bytes"
	"fmt"
	"io"
	"net"
	"os"
	"os/exec"
	"sort"
	"strconv"
	"strings"
	"sync"
	"sync/atomic"
	"time"
)

var (
	people    = []string{"ada", "bruno", "chen", "dina", "elif", "farid", "gwen", "hana"}
	actions   = []string{"read", "write", "prescribe"}
	resources = []string{"record-moss", "record-okoye", "scan-moss", "rota"}
)

// requests are requests of the clinic's people.
func requests() [][]byte {
	var all [][]byte
	for _, person := range people {
		for _, action := range actions {
			for _, resource := range resources {
				all = append(all, []byte(fmt.Sprintf(`{"Request":{"AccessSubject":{"Attribute":{"AttributeId":`+
					`"urn:oasis:names:tc:xacml:1.0:subject:subject-id","Value":%q}},"Action":{"Attribute":{"AttributeId":`+
					`"urn:oasis:names:tc:xacml:1.0:action:action-id","Value":%q}},"Resource":{"Attribute":{"AttributeId":`+
					`"urn:oasis:names:tc:xacml:1.0:resource:resource-id","Value":%q}}}}`, person, action, resource)))
			}
		}
	}
	return all
}

// pipeAlone asks by the pipe for a while, as many lines ahead as the pipe takes, and gives answers a second.
func pipeAlone(r run) (float64, error) {
	program := exec.Command(r.program, "serve")
	input, err := program.StdinPipe()
	if err != nil {
		return 0, err
	}
	output, err := program.StdoutPipe()
	if err != nil {
		return 0, err
	}
	if err := program.Start(); err != nil {
		return 0, err
	}
	defer program.Wait()
	defer input.Close()
	state, err := os.ReadFile(r.clinic)
	if err != nil {
		return 0, err
	}
	replies := bufio.NewReaderSize(output, 1<<18)
	if _, err := input.Write(state); err != nil {
		return 0, err
	}
	for range bytes.Split(bytes.TrimSpace(state), []byte("\n")) {
		if _, err := replies.ReadSlice('\n'); err != nil && err != bufio.ErrBufferFull {
			return 0, err
		}
	}
	return pipelined(input, replies, r.time)
}

// pipelined writes asks for a while and reads all replies.
func pipelined(input io.Writer, replies *bufio.Reader, lasting time.Duration) (float64, error) {
	began := time.Now()
	var sent atomic.Int64
	ended := make(chan error, 1)
	go func() {
		to := bufio.NewWriterSize(input, 1<<16)
		all := requests()
		for i := 0; time.Since(began) < lasting; i++ {
			to.WriteString(`{"do":"ask","request":`)
			to.Write(all[i%len(all)])
			to.WriteString("}\n")
			sent.Add(1)
		}
		ended <- to.Flush()
	}()
	count := int64(0)
	for done := false; !done || count < sent.Load(); {
		if _, err := replies.ReadSlice('\n'); err != nil {
			return 0, err
		}
		count++
		if !done && time.Since(began) >= lasting {
			if err := <-ended; err != nil {
				return 0, err
			}
			done = true
		}
	}
	return float64(count) / time.Since(began).Seconds(), nil
}

// asked is what came of requests over some connections.
type asked struct {
	rate    float64 // answers a second
	median  time.Duration
	slowest time.Duration // of a hundred
	front   time.Duration // processor time of the front for an answer
	program time.Duration // that of the program
}

// overHTTP asks a front over so many kept connections for a while. Each waits for its answer before it asks again.
func (s *started) overHTTP(connections int, lasting time.Duration) (asked, error) {
	var all sync.WaitGroup
	times := make([][]time.Duration, connections)
	faults := make(chan error, connections)
	front, program, err := s.worked()
	if err != nil {
		return asked{}, err
	}
	began := time.Now()
	for i := 0; i < connections; i++ {
		all.Add(1)
		go func(i int) {
			defer all.Done()
			taken, err := asking(address, i, began.Add(lasting))
			times[i] = taken
			if err != nil {
				faults <- err
			}
		}(i)
	}
	all.Wait()
	took := time.Since(began)
	close(faults)
	if err := <-faults; err != nil {
		return asked{}, err
	}
	var every []time.Duration
	for _, taken := range times {
		every = append(every, taken...)
	}
	frontNow, programNow, err := s.worked()
	if err != nil {
		return asked{}, err
	}
	sort.Slice(every, func(i, j int) bool { return every[i] < every[j] })
	count := time.Duration(len(every))
	return asked{
		rate: float64(count) / took.Seconds(), median: every[count/2], slowest: every[count*99/100],
		front: (frontNow - front) / count, program: (programNow - program) / count,
	}, nil
}

// asking asks over one connection until a time.
func asking(address string, first int, until time.Time) ([]time.Duration, error) {
	conn, err := net.Dial("tcp", address)
	if err != nil {
		return nil, err
	}
	defer conn.Close()
	var posts [][]byte
	for _, request := range requests() {
		posts = append(posts, []byte("POST /authorize HTTP/1.1\r\nHost: localhost\r\nContent-Type: application/xacml+json\r\n"+
			"Content-Length: "+strconv.Itoa(len(request))+"\r\n\r\n"+string(request)))
	}
	from := bufio.NewReaderSize(conn, 1<<14)
	var taken []time.Duration
	for i := first; time.Now().Before(until); i++ {
		began := time.Now()
		if _, err := conn.Write(posts[i%len(posts)]); err != nil {
			return nil, err
		}
		if err := answer(from); err != nil {
			return nil, err
		}
		taken = append(taken, time.Since(began))
	}
	return taken, nil
}

// answer reads one answer, which has to be a response.
func answer(from *bufio.Reader) error {
	length := -1
	for first := true; ; first = false {
		l, err := from.ReadSlice('\n')
		if err != nil {
			return err
		}
		if first && !bytes.Contains(l, []byte(" 200 ")) {
			return fmt.Errorf("the front answers %s", l)
		}
		if bytes.HasPrefix(l, []byte("Content-Length: ")) {
			if length, err = strconv.Atoi(strings.TrimSpace(string(l[len("Content-Length: "):]))); err != nil {
				return err
			}
		}
		if len(bytes.TrimSpace(l)) == 0 {
			break
		}
	}
	_, err := from.Discard(length)
	return err
}
