package web

import (
	"crypto/tls"
	"io"
	"net"
	"sync"
	"sync/atomic"
	"time"
)

// lingerTime is how long a client may still send who is told the end before he sent all.
const lingerTime = time.Second

// limited is a listener that has so many connections at a time. Others wait where the system keeps them.
type limited struct {
	net.Listener
	places chan struct{}
	closed chan struct{}
	once   sync.Once
	each   int // how many connections an address has at most, or 0
	mutex  sync.Mutex
	held   map[string]int // how many each address has
}

// Limit bounds how many connections of a listener there are at a time, and of them how many one address has, if that
// isn't 0: its further ones are closed. (The LimitListener of x/net hides that one can
// be closed for writing alone, without which answers are lost.)
func Limit(listener net.Listener, most, each int) net.Listener {
	return &limited{
		Listener: listener, places: make(chan struct{}, most), closed: make(chan struct{}), each: each, held: map[string]int{},
	}
}

// Accept waits for a place and a connection.
func (l *limited) Accept() (net.Conn, error) {
	select {
	case l.places <- struct{}{}:
	case <-l.closed:
		return nil, net.ErrClosed
	}
	for {
		conn, err := l.Listener.Accept()
		if err != nil {
			<-l.places
			return nil, err
		}
		from := addressOf(conn)
		if l.enter(from) {
			return &placed{Conn: conn, free: func() { l.leave(from); <-l.places }}, nil
		}
		conn.Close()
	}
}

// addressOf is the address of whom a connection is with, without its port.
func addressOf(conn net.Conn) string {
	at := conn.RemoteAddr().String()
	if name, _, err := net.SplitHostPort(at); err == nil {
		return name
	}
	return at
}

// enter counts a connection of an address, unless it has as many as it may.
func (l *limited) enter(from string) bool {
	l.mutex.Lock()
	defer l.mutex.Unlock()
	if l.each > 0 && l.held[from] >= l.each {
		return false
	}
	l.held[from]++
	return true
}

// leave counts a connection less.
func (l *limited) leave(from string) {
	l.mutex.Lock()
	defer l.mutex.Unlock()
	if l.held[from]--; l.held[from] == 0 {
		delete(l.held, from)
	}
}

// Close closes the listener.
func (l *limited) Close() error {
	l.once.Do(func() { close(l.closed) })
	return l.Listener.Close()
}

// placed is a connection that gives its place back.
type placed struct {
	net.Conn
	once    sync.Once
	free    func()
	lingers atomic.Bool
}

// CloseWrite says that nothing more is sent.
func (p *placed) CloseWrite() error {
	if half, ok := p.Conn.(interface{ CloseWrite() error }); ok {
		return half.CloseWrite()
	}
	return nil
}

// Close closes the connection. Where it lingers it is first read on for a while: what comes after its end would
// have the system take back what the client hasn't read yet.
func (p *placed) Close() error {
	if p.lingers.Swap(false) && p.CloseWrite() == nil && p.SetReadDeadline(time.Now().Add(lingerTime)) == nil {
		_, _ = io.Copy(io.Discard, p.Conn)
	}
	p.once.Do(p.free)
	return p.Conn.Close()
}

// linger has a connection linger when it is closed.
func linger(conn net.Conn) {
	if secured, ok := conn.(*tls.Conn); ok {
		conn = secured.NetConn()
	}
	if p, ok := conn.(*placed); ok {
		p.lingers.Store(true)
	}
}
