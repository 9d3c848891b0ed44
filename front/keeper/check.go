package keeper

import (
	"bytes"
	"context"
	"errors"
	"fmt"
	"os/exec"
	"runtime"
	"syscall"
	"time"
)

// checkTime is how long it may take to check a document.
const checkTime = 10 * time.Second

// checkMost is how much is kept of what is said of a document.
const checkMost = 1 << 20

// kept keeps the first part of what is written, and passes over the rest.
type kept struct{ bytes.Buffer }

func (k *kept) Write(b []byte) (int, error) {
	if room := checkMost - k.Len(); room > 0 {
		if room > len(b) {
			room = len(b)
		}
		k.Buffer.Write(b[:room])
	}
	return len(b), nil
}

// CheckDocument has the program say what is wrong with the text of a policy or a policy set, in a process of its own,
// and whether it may be stored. One is checked at a time.
func (k *Keeper) CheckDocument(ctx context.Context, text []byte) (said []byte, isFit bool, err error) {
	ctx, cancel := context.WithTimeout(ctx, checkTime)
	defer cancel()
	select {
	case k.checking <- struct{}{}:
		defer func() { <-k.checking }()
	case <-ctx.Done():
		return nil, false, ErrBusy
	}
	var told kept
	runtime.LockOSThread()
	defer runtime.UnlockOSThread()
	checked := exec.CommandContext(ctx, k.Command.Path, "check", "--all", "-")
	checked.Stdin, checked.Stdout, checked.Stderr = bytes.NewReader(text), &told, &told
	checked.SysProcAttr = &syscall.SysProcAttr{Setpgid: true, Pdeathsig: syscall.SIGKILL}
	err = checked.Run()
	var status *exec.ExitError
	if errors.As(err, &status) && status.Exited() {
		return told.Bytes(), false, nil
	}
	if err != nil {
		return nil, false, fmt.Errorf("a document's check: %w", err)
	}
	return told.Bytes(), true, nil
}
