package records

import (
	"bytes"
	"context"
	"errors"
	"fmt"
	"os"
	"os/exec"
	"path/filepath"
	"strings"
	"syscall"
	"unicode/utf8"

	"review-front/source/form"
	"review-front/source/values"
)

// mark is what some programs write before a text in UTF-8.
var mark = []byte("\xef\xbb\xbf")

// read reads a file, or what a command writes, whole: what broke off isn't taken. It gives the name by which places in
// it are told.
func read(ctx context.Context, s *form.Source, from form.Output) ([]byte, string, error) {
	var content []byte
	var err error
	name := s.Beside(from.File)
	if len(from.Command) > 0 {
		name = strings.Join(from.Command, " ")
		content, err = outputOf(ctx, s, from.Command)
	} else {
		content, err = still(name)
	}
	if err != nil {
		return nil, name, err
	}
	content = bytes.TrimPrefix(content, mark)
	if at := invalid(content); at > 0 {
		return nil, name, fmt.Errorf("%s:%d: %w", name, at, values.ErrNoUTF8)
	}
	if len(content) > 0 && content[len(content)-1] != '\n' {
		return nil, name, fmt.Errorf("%s:%d: the last line has no end: half a file isn't taken",
			name, 1+bytes.Count(content, newline))
	}
	if from.Last == "" {
		return content, name, nil
	}
	whole := strings.TrimRight(string(content), "\r\n")
	if !strings.HasSuffix(whole, "\n"+from.Last) && whole != from.Last {
		return nil, name, fmt.Errorf("%s: its last line isn't %q: half a file isn't taken", name, from.Last)
	}
	return []byte(strings.TrimSuffix(whole, from.Last)), name, nil
}

var newline = []byte("\n")

// invalid is the first line that isn't UTF-8, or 0.
func invalid(content []byte) int {
	if utf8.Valid(content) {
		return 0
	}
	for i, line := range bytes.Split(content, newline) {
		if !utf8.Valid(line) {
			return i + 1
		}
	}
	return 1
}

// still reads a file that isn't written meanwhile.
func still(path string) ([]byte, error) {
	before, err := os.Stat(path)
	if err != nil {
		return nil, err
	}
	content, err := os.ReadFile(path)
	if err != nil {
		return nil, err
	}
	after, err := os.Stat(path)
	if err != nil {
		return nil, err
	}
	if !before.ModTime().Equal(after.ModTime()) || before.Size() != after.Size() || int64(len(content)) != after.Size() {
		return nil, fmt.Errorf("%s: it is being written", path)
	}
	return content, nil
}

// outputOf is what a command writes, if it succeeds. It runs in the folder of the source's file, and ends in its time
// with all that it began.
func outputOf(ctx context.Context, s *form.Source, words []string) ([]byte, error) {
	command := exec.Command(words[0], words[1:]...)
	command.Dir = filepath.Dir(s.Path)
	command.SysProcAttr = &syscall.SysProcAttr{Setpgid: true}
	var content, faults bytes.Buffer
	command.Stdout, command.Stderr = &content, &faults
	err := command.Start()
	if err == nil {
		done := make(chan struct{})
		go func() {
			select {
			case <-ctx.Done():
				_ = syscall.Kill(-command.Process.Pid, syscall.SIGKILL)
			case <-done:
			}
		}()
		err = command.Wait()
		close(done)
	}
	if ctx.Err() != nil {
		err = ctx.Err()
	}
	if err == nil {
		return content.Bytes(), nil
	}
	said := strings.TrimSpace(faults.String())
	if len(said) > 1000 {
		said = said[:1000]
	}
	if said != "" {
		said = ": " + said
	}
	var ended *exec.ExitError
	if errors.As(err, &ended) {
		return nil, fmt.Errorf("%s ends with %v%s", strings.Join(words, " "), err, said)
	}
	return nil, fmt.Errorf("%s: %w%s", strings.Join(words, " "), err, said)
}
