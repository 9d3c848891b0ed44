package jetstream

import "review-front/limits"

// Options is which stream it is, and how it is reached.
type Options struct {
	Servers     string        // their addresses, with commas between
	Stream      string        // its name
	Replicas    int           // how many servers keep it, where it is made
	Limits      limits.Limits // of the programs of all its fronts
	Credentials string        // a file by which the front is known to the servers; may be nothing
	Authority   string        // a file with certificates that sign those of the servers; may be nothing
}
