// Package program starts the service as a process and holds both ends of its pipe.
package program

import (
	"bufio"
	"bytes"
	"context"
	"errors"
	"fmt"
	"io"
	"os"
	"os/exec"
	"strconv"
	"strings"
	"sync/atomic"
	"syscall"
	"time"

	"review-front/limits"
	"review-front/spool"
)

// Command is how the program is started.
type Command struct {
	Path             string // the program `review`
	AttributeModules int    // how many modules of values it has
	PolicyModules    int    // how many modules of documents it has
	Limits           limits.Limits
	Faults           io.Writer // takes what it says of faults
}

// ErrEnded says that the program ended, or closed its pipe.
var ErrEnded = errors.New("the program ended")

// A pipe of this many bytes is asked for: fewer turns between the front and the program.
const (
	pipeBytes  = 1 << 20
	setPipe    = 1031 // F_SETPIPE_SZ of Linux
	readBuffer = 1 << 18
	rest       = 1 << 20
	// besidePriority has a process get a third of what another one gets.
	besidePriority = 5
	// beginning is how much of a reply that is longer than what is read at once stays in memory.
	beginning = 1 << 16
)

var newline = []byte("\n")

const (
	closeTime = 2 * time.Second // how long the program may take to end by itself
	killTime  = time.Second     // how long the system may take to end it
)

// Program is one process of the service. Its input is written by one goroutine, its output read by another.
type Program struct {
	process *exec.Cmd
	input   *os.File
	output  *os.File
	writer  *bufio.Writer
	reader  *bufio.Reader
	looks   uint64
	killed  atomic.Bool
	done    chan struct{}
	ended   error // how it ended, once done is closed
}

// Version is what the program says of its version.
func (c Command) Version(ctx context.Context) (string, error) {
	said, err := exec.CommandContext(ctx, c.Path, "--version").Output()
	if err != nil {
		return "", fmt.Errorf("%s --version: %w", c.Path, err)
	}
	return strings.TrimSpace(string(said)), nil
}

// Start starts the program, which holds nothing.
func (c Command) Start() (*Program, error) {
	input, toProgram, err := os.Pipe()
	if err != nil {
		return nil, fmt.Errorf("a pipe to the program: %w", err)
	}
	fromProgram, output, err := os.Pipe()
	if err != nil {
		input.Close()
		toProgram.Close()
		return nil, fmt.Errorf("a pipe from the program: %w", err)
	}
	widen(toProgram)
	widen(fromProgram)
	words := []string{"serve",
		"--attribute-modules", strconv.Itoa(c.AttributeModules), "--policy-modules", strconv.Itoa(c.PolicyModules)}
	process := exec.Command(c.Path, append(words, c.Limits.Words()...)...)
	process.Stdin, process.Stdout, process.Stderr = input, output, c.Faults
	// What a terminal sends to the front isn't sent to the program.
	process.SysProcAttr = &syscall.SysProcAttr{Setpgid: true}
	err = process.Start()
	input.Close()
	output.Close()
	if err != nil {
		toProgram.Close()
		fromProgram.Close()
		return nil, fmt.Errorf("starting the program: %w", err)
	}
	p := &Program{
		process: process, input: toProgram, output: fromProgram, done: make(chan struct{}),
		writer: bufio.NewWriterSize(toProgram, readBuffer), reader: bufio.NewReaderSize(fromProgram, readBuffer),
	}
	go p.wait()
	return p, nil
}

// widen asks for a pipe of more bytes; without it the pipe works as well.
func widen(pipe *os.File) {
	raw, err := pipe.SyscallConn()
	if err != nil {
		return
	}
	_ = raw.Control(func(fd uintptr) {
		_, _, _ = syscall.Syscall(syscall.SYS_FCNTL, fd, setPipe, pipeBytes)
	})
}

func (p *Program) wait() {
	err := p.process.Wait()
	if err == nil {
		err = errors.New("exit status 0")
	}
	p.ended = fmt.Errorf("%w: %v", ErrEnded, err)
	close(p.done)
}

// Send puts a line into the pipe, or into what is flushed with it later.
func (p *Program) Send(line []byte) error {
	p.looks += LooksOf(len(line))
	if _, err := p.writer.Write(line); err != nil {
		return fmt.Errorf("%w: %v", ErrEnded, err)
	}
	if err := p.writer.WriteByte('\n'); err != nil {
		return fmt.Errorf("%w: %v", ErrEnded, err)
	}
	return nil
}

// Flush sees that all lines are in the pipe.
func (p *Program) Flush() error {
	if err := p.writer.Flush(); err != nil {
		return fmt.Errorf("%w: %v", ErrEnded, err)
	}
	return nil
}

// Receive waits for the next reply, without its newline, for which there is room. The bytes are the caller's.
func (p *Program) Receive() ([]byte, error) {
	part, err := p.reader.ReadSlice('\n')
	reply := append([]byte(nil), part...)
	for errors.Is(err, bufio.ErrBufferFull) {
		part, err = p.reader.ReadSlice('\n')
		reply = append(reply, part...)
	}
	if err = ending(err); err != nil {
		return nil, err
	}
	return reply[:len(reply)-1], nil
}

// ending is why a reply has no end. What has no newline is a front of a reply, and none.
func ending(err error) error {
	if err == nil {
		return nil
	}
	return fmt.Errorf("%w: %v", ErrEnded, err)
}

// Reply is what the program answered, of which the rest stands in a file if it is long.
type Reply struct {
	Body []byte
	Rest *spool.File
	Lost error // why the rest is nowhere
}

// ReceiveLong waits for the next reply as Receive does, and has what is long of it wait in a file.
func (p *Program) ReceiveLong(to *spool.Spool) (Reply, error) {
	part, err := p.reader.ReadSlice('\n')
	if !errors.Is(err, bufio.ErrBufferFull) {
		return Reply{Body: append([]byte(nil), bytes.TrimSuffix(part, newline)...)}, ending(err)
	}
	reply := Reply{Body: append([]byte(nil), part[:beginning]...)}
	part = part[beginning:]
	reply.Rest, reply.Lost = to.File()
	for errors.Is(err, bufio.ErrBufferFull) {
		reply.add(part)
		part, err = p.reader.ReadSlice('\n')
	}
	if err = ending(err); err != nil {
		reply.Lose(err)
		return Reply{}, err
	}
	reply.add(part[:len(part)-1])
	return reply, nil
}

// ReceiveTo waits for the next reply and writes it, without its newline, as it comes. What takes it may fail: it is
// read to its end all the same, and that is given beside.
func (p *Program) ReceiveTo(to io.Writer) (wrote, err error) {
	for {
		part, err := p.reader.ReadSlice('\n')
		if err != nil && !errors.Is(err, bufio.ErrBufferFull) {
			return wrote, ending(err)
		}
		if wrote == nil {
			_, wrote = to.Write(bytes.TrimSuffix(part, newline))
		}
		if err == nil {
			return wrote, nil
		}
	}
}

// End changes the end of a reply: of its last bytes as many as they are at most, `change` says how many stay and what
// stands behind them.
func (r Reply) End(most int, change func(end []byte) (stay int, behind []byte, ok bool)) (Reply, error) {
	if r.Rest != nil {
		return r, r.Rest.End(most, change)
	}
	from := len(r.Body) - most
	if from < 0 {
		from = 0
	}
	stay, behind, ok := change(r.Body[from:])
	if !ok {
		return r, errors.New("the end of a reply isn't as it is known")
	}
	r.Body = append(r.Body[:from+stay], behind...)
	return r, nil
}

// add puts a part into the file. Where that can't be done the reply is read on, and given up.
func (r *Reply) add(part []byte) {
	if r.Lost != nil {
		return
	}
	if _, err := r.Rest.Write(part); err != nil {
		r.Lose(fmt.Errorf("a reply that is long: %w", err))
	}
}

// Lose gives a reply up.
func (r *Reply) Lose(why error) {
	r.Lost = why
	if r.Rest != nil {
		r.Rest.Close()
		r.Rest = nil
	}
}

// LooksOf is how often the program looks at its input for a line of so many bytes, at most: it takes what the pipe
// has, which may be a part of a page.
func LooksOf(bytes int) uint64 {
	return 2 + uint64(bytes)/2048
}

// Looks is how often the program has looked at its input, at most. It is for the goroutine that sends.
func (p *Program) Looks() uint64 { return p.looks }

// Rest counts fewer looks, so that Looks is at a bound again only after some more.
func (p *Program) Rest() {
	if p.looks > rest {
		p.looks -= rest
	} else {
		p.looks = 0
	}
}

// Done is closed when the process has ended.
func (p *Program) Done() <-chan struct{} { return p.done }

// Ended says how the process ended, if it has.
func (p *Program) Ended() error {
	select {
	case <-p.done:
		return p.ended
	default:
		return errors.New("it was killed, and hasn't ended yet")
	}
}

// Yield has the process work less than others that want to work too.
func (p *Program) Yield() {
	// Where the system doesn't have it so, it works as the others do.
	_ = syscall.Setpriority(syscall.PRIO_PROCESS, p.ID(), besidePriority)
}

// ID is the number of the process.
func (p *Program) ID() int { return p.process.Process.Pid }

// Kill ends the process at once, and what it started. Where the system can't end it soon its pipe is closed, so that
// nobody waits for it.
func (p *Program) Kill() {
	if p.killed.Swap(true) {
		return
	}
	if p.process.Process.Signal(syscall.Signal(0)) == nil {
		_ = syscall.Kill(-p.ID(), syscall.SIGKILL)
	}
	go func() {
		if !p.ends(killTime) {
			p.shut()
		}
	}()
}

// ends waits a while for the process's end.
func (p *Program) ends(while time.Duration) bool {
	timer := time.NewTimer(while)
	defer timer.Stop()
	select {
	case <-p.done:
		return true
	case <-timer.C:
		return false
	}
}

// shut closes the pipe.
func (p *Program) shut() {
	_ = p.input.Close()
	_ = p.output.Close()
}

// Close ends the input, and the process with it, and waits for its end; after a while it is killed.
func (p *Program) Close() {
	_ = p.writer.Flush()
	_ = p.input.Close()
	if !p.ends(closeTime) {
		p.Kill()
		p.ends(killTime)
	}
	p.shut()
}

// Discard kills the process and gives back what it held.
func (p *Program) Discard() {
	p.Kill()
	p.ends(killTime)
	p.shut()
}
