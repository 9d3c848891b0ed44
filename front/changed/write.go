package changed

import (
	"encoding/json"

	"review-front/frame"
)

// headOf is the record of the head of a file that begins with an edit, behind another one.
func headOf(edit Edit, after uint64) ([]byte, error) {
	written, err := json.Marshal(head{Kind: kind, Format: format, After: after, Time: edit.Time.UTC()})
	if err != nil {
		return nil, err
	}
	return frame.Append(nil, written), nil
}

// add adds an edit to the file that is written.
func (b *Book) add(edit Edit, body []byte) error {
	w := b.open
	written, err := record(edit, w.edit, w.names, body)
	if err == nil {
		written = frame.Append(nil, written)
		_, err = w.file.WriteAt(written, w.size)
	}
	if err != nil {
		w.names.drop()
		return err
	}
	w.names.fresh = nil
	b.mutex.Lock()
	defer b.mutex.Unlock()
	w.size += int64(len(written))
	w.last, w.ends = edit.Serial, edit.Time
	w.edit = edit
	w.edit.Time = edit.Time.UTC()
	return nil
}
