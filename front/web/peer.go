package web

import (
	"net"
	"syscall"
)

// userOf is the number of the user at the other end of a Unix socket.
func userOf(c net.Conn) (uint32, bool) {
	local, ok := c.(*net.UnixConn)
	if !ok {
		return 0, false
	}
	raw, err := local.SyscallConn()
	if err != nil {
		return 0, false
	}
	var other *syscall.Ucred
	var failed error
	err = raw.Control(func(fd uintptr) {
		other, failed = syscall.GetsockoptUcred(int(fd), syscall.SOL_SOCKET, syscall.SO_PEERCRED)
	})
	if err != nil || failed != nil {
		return 0, false
	}
	return other.Uid, true
}
