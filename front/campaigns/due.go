package campaigns

import "time"

// Due are the records that the days ask for: reminders, and ends.
func (t *Table) Due(now time.Time) (due []*Record) {
	t.mutex.Lock()
	defer t.mutex.Unlock()
	today := now.UTC().Format(day)
	for _, c := range t.all {
		if c.closed != nil {
			continue
		}
		if c.endedAt(now) {
			due = append(due, &Record{Do: Close, Campaign: c.Name})
			continue
		}
		for _, one := range c.Remind {
			if one <= today && !c.reminded[one] {
				due = append(due, &Record{Do: Remind, Campaign: c.Name, Day: one})
				break // of several days that are over one reminder is enough
			}
		}
	}
	return due
}
