package keeper

import "sync"

// readiness says whether something is ready, and lets others wait until it is.
type readiness struct {
	mutex  sync.Mutex
	ready  bool
	opened chan struct{} // closed once it is ready
}

func newReadiness() *readiness { return &readiness{opened: make(chan struct{})} }

// is says whether it is ready.
func (r *readiness) is() bool {
	r.mutex.Lock()
	defer r.mutex.Unlock()
	return r.ready
}

// wait is closed once it is ready.
func (r *readiness) wait() <-chan struct{} {
	r.mutex.Lock()
	defer r.mutex.Unlock()
	return r.opened
}

// set says that it is ready, or isn't any more.
func (r *readiness) set(ready bool) {
	r.mutex.Lock()
	defer r.mutex.Unlock()
	switch {
	case ready && !r.ready:
		close(r.opened)
	case !ready && r.ready:
		r.opened = make(chan struct{})
	}
	r.ready = ready
}

// progress lets others wait until something has grown.
type progress struct {
	mutex sync.Mutex
	grown chan struct{} // closed when it has; nil where nobody waits
}

// moved says that it has grown.
func (p *progress) moved() {
	p.mutex.Lock()
	defer p.mutex.Unlock()
	if p.grown != nil {
		close(p.grown)
		p.grown = nil
	}
}

// next is closed once it has grown again.
func (p *progress) next() <-chan struct{} {
	p.mutex.Lock()
	defer p.mutex.Unlock()
	if p.grown == nil {
		p.grown = make(chan struct{})
	}
	return p.grown
}
