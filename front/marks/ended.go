package marks

import "time"

// mostEnded is of how many clients who have gone it is known when.
const mostEnded = 10_000

// ended is when clients had gone.
type ended struct {
	at    map[string]time.Time
	order []string
}

// add adds one. Of too many the first is forgotten.
func (e *ended) add(client string, at time.Time) {
	if e.at == nil {
		e.at = map[string]time.Time{}
	}
	if _, known := e.at[client]; !known {
		e.order = append(e.order, client)
	}
	e.at[client] = at
	if len(e.order) > mostEnded {
		delete(e.at, e.order[0])
		e.order = e.order[1:]
	}
}
