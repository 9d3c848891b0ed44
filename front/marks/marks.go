// Package marks keeps at which serial clients marked the table who stay over a start of the front, and where the
// program's own marks stood, in a file of the folder of journals.
package marks

import (
	"bytes"
	"encoding/json"
	"errors"
	"fmt"
	"io"
	"os"
	"sync"
	"time"

	"review-front/folder"
	"review-front/frame"
	"review-front/ladder"
)

const (
	fileName = "marks"
	format   = 1
	// slack is how many bytes the file has that count no more before it is written anew, beside as many as do.
	slack = 1 << 20
)

// Folder is where the file stands.
type Folder interface {
	// Path is where a file of the folder stands.
	Path(name string) string
	// Replace has a file on disk with this content in the place of what was there, and gives it to be written on.
	Replace(name string, content []byte) (*os.File, error)
}

// head is the first record.
type head struct {
	Kind   string `json:"kind"`
	Format int    `json:"format"`
}

// Mark is a client's mark at a number of his.
type Mark struct {
	Client string `json:"client"`
	Number int    `json:"number"`
	Serial uint64 `json:"serial"`
}

// record is one of: a client, a mark of his, that he has gone, a mark of the program, whether somebody listens. Beside
// it stands up to which byte the file was known to be on disk.
type record struct {
	Came string       `json:"came,omitempty"`
	Mark *Mark        `json:"mark,omitempty"`
	Gone string       `json:"gone,omitempty"`
	At   *time.Time   `json:"at,omitempty"` // when he had gone
	Rung *ladder.Rung `json:"rung,omitempty"`
	Ears *bool        `json:"listens,omitempty"`
	Disk int64        `json:"synced"`
}

// Book is what is kept.
type Book struct {
	folder  Folder
	mutex   sync.Mutex
	clients map[string]map[int]uint64
	ended   ended
	rungs   []ladder.Rung
	ears    bool
	file    *os.File // nil before something is kept, and once it couldn't be written
	size    int64    // of what counts in it
	synced  int64    // of what is known to be on disk of it
	live    int64    // of what it would have if it were written anew
}

// New is a book in which nothing stands, whose file is to stand in a folder.
func New(folder Folder) *Book {
	return &Book{folder: folder, clients: map[string]map[int]uint64{}}
}

// Append keeps marks of clients, and returns once they are on disk. After an error they may be kept or not.
func (b *Book) Append(marks []Mark) error {
	b.mutex.Lock()
	defer b.mutex.Unlock()
	var records []record
	for i := range marks {
		b.take(marks[i])
		records = append(records, record{Mark: &marks[i]})
	}
	return b.write(records, true)
}

// Came keeps a client who hasn't marked. That is on disk some time.
func (b *Book) Came(client string) error {
	b.mutex.Lock()
	defer b.mutex.Unlock()
	b.clients[client] = map[int]uint64{}
	return b.write([]record{{Came: client}}, false)
}

// Gone forgets a client. That is on disk some time.
func (b *Book) Gone(client string) error {
	b.mutex.Lock()
	defer b.mutex.Unlock()
	if _, there := b.clients[client]; !there {
		return nil
	}
	delete(b.clients, client)
	at := time.Now().UTC().Truncate(time.Second)
	b.ended.add(client, at)
	return b.write([]record{{Gone: client, At: &at}}, false)
}

// Ended is when a client had gone, if that is known still.
func (b *Book) Ended(client string) (time.Time, bool) {
	b.mutex.Lock()
	defer b.mutex.Unlock()
	at, known := b.ended.at[client]
	return at, known
}

// Stood keeps where the program's marks stand, of which the last is new. That is on disk some time.
func (b *Book) Stood(rungs []ladder.Rung, last ladder.Rung) error {
	b.mutex.Lock()
	defer b.mutex.Unlock()
	b.rungs = rungs
	return b.write([]record{{Rung: &last}}, false)
}

// Listens keeps whether somebody listens, or may come back. That is on disk some time.
func (b *Book) Listens(listens bool) error {
	b.mutex.Lock()
	defer b.mutex.Unlock()
	if b.ears == listens {
		return nil
	}
	b.ears = listens
	return b.write([]record{{Ears: &listens}}, false)
}

// Listened says whether somebody listened.
func (b *Book) Listened() bool {
	b.mutex.Lock()
	defer b.mutex.Unlock()
	return b.ears
}

// Clients has the marks of each client by his numbers.
func (b *Book) Clients() map[string]map[int]uint64 {
	b.mutex.Lock()
	defer b.mutex.Unlock()
	return b.clients
}

// Rungs are where the program's marks stood.
func (b *Book) Rungs() []ladder.Rung {
	b.mutex.Lock()
	defer b.mutex.Unlock()
	return b.rungs
}

func (b *Book) take(mark Mark) {
	if b.clients[mark.Client] == nil {
		b.clients[mark.Client] = map[int]uint64{}
	}
	b.clients[mark.Client][mark.Number] = mark.Serial
}

// write adds records to the file, or writes it anew where much of it counts no more or it can't be gone on with.
func (b *Book) write(records []record, sync bool) error {
	if b.file == nil || b.size > 2*b.live+slack {
		return b.rewrite()
	}
	for i := range records {
		records[i].Disk = b.synced
	}
	written, err := framed(nil, records)
	if err == nil {
		_, err = b.file.WriteAt(written, b.size)
	}
	if err == nil && sync {
		err = b.file.Sync()
	}
	if err != nil {
		b.file.Close()
		b.file = nil
		return fmt.Errorf("the marks can't be written: %w", err)
	}
	b.size += int64(len(written))
	if sync {
		b.synced = b.size
	}
	return nil
}

// rewrite writes the file anew, of what is kept.
func (b *Book) rewrite() error {
	first, err := json.Marshal(head{Kind: fileName, Format: format})
	if err != nil {
		return err
	}
	var records []record
	for client, marks := range b.clients {
		records = append(records, record{Came: client})
		for number, serial := range marks {
			records = append(records, record{Mark: &Mark{Client: client, Number: number, Serial: serial}})
		}
	}
	for _, client := range b.ended.order {
		at := b.ended.at[client]
		records = append(records, record{Gone: client, At: &at})
	}
	for i := range b.rungs {
		records = append(records, record{Rung: &b.rungs[i]})
	}
	records = append(records, record{Ears: &b.ears})
	written, err := framed(frame.Append(nil, first), records)
	if err != nil {
		return err
	}
	file, err := b.folder.Replace(fileName, written)
	if err != nil {
		return fmt.Errorf("the marks can't be written: %w", err)
	}
	if b.file != nil {
		b.file.Close()
	}
	b.file = file
	b.size, b.synced, b.live = int64(len(written)), int64(len(written)), int64(len(written))
	return nil
}

// framed adds records to some bytes.
func framed(to []byte, records []record) ([]byte, error) {
	for _, one := range records {
		content, err := json.Marshal(one)
		if err != nil {
			return nil, fmt.Errorf("the record of a mark: %w", err)
		}
		to = frame.Append(to, content)
	}
	return to, nil
}

// Recover reads the file, if there is one, and forgets marks of edits behind the journal's last. What a crash left
// behind the last byte that was known to be on disk is dropped, and it is told where that begins; other damage is an
// error.
func (b *Book) Recover(last uint64) (torn *folder.Torn, err error) {
	b.mutex.Lock()
	defer b.mutex.Unlock()
	content, err := os.ReadFile(b.folder.Path(fileName))
	if errors.Is(err, os.ErrNotExist) {
		return nil, nil
	}
	if err != nil {
		return nil, fmt.Errorf("the marks: %w", err)
	}
	records := frame.NewReader(bytes.NewReader(content), b.folder.Path(fileName))
	fault := b.read(records, last)
	var damage *frame.Damage
	if !errors.Is(fault, frame.ErrTorn) && !errors.As(fault, &damage) {
		return nil, fault
	}
	place := records.Place()
	rest, whole := content[place:], damage != nil && damage.Place < place
	if place == 0 || whole || knownBehind(rest, place) {
		return nil, fault
	}
	return &folder.Torn{File: b.folder.Path(fileName), Place: place, Bytes: int64(len(rest)), What: fault.Error()}, nil
}

// knownBehind says whether a record among some bytes says that more of the file was on disk than up to their place.
func knownBehind(rest []byte, place int64) (known bool) {
	frame.Find(rest, func(content []byte) {
		var r record
		known = known || json.Unmarshal(content, &r) == nil && r.Disk > place
	})
	return known
}

// read reads all records, until one isn't sound.
func (b *Book) read(records *frame.Reader, last uint64) error {
	damage := records.Damage("it doesn't begin with the head of the marks")
	content, err := records.Next()
	var first head
	if err != nil || json.Unmarshal(content, &first) != nil || first.Kind != fileName || first.Format != format {
		return damage
	}
	for {
		damage = records.Damage("a record is no mark")
		content, err := records.Next()
		if err == io.EOF {
			return nil
		}
		if err != nil {
			return err
		}
		var r record
		if err := json.Unmarshal(content, &r); err != nil {
			return damage
		}
		b.recall(r, last)
	}
}

// recall takes over what a record says, if the edits that it tells of are kept.
func (b *Book) recall(r record, last uint64) {
	switch {
	case r.Ears != nil:
		b.ears = *r.Ears
	case r.Came != "":
		b.clients[r.Came] = map[int]uint64{}
	case r.Gone != "":
		delete(b.clients, r.Gone)
		if r.At != nil {
			b.ended.add(r.Gone, *r.At)
		}
	case r.Rung != nil && r.Rung.Serial <= last:
		b.rungs = append(b.rungs, *r.Rung)
	case r.Mark != nil && r.Mark.Serial <= last:
		b.take(*r.Mark)
	}
}

// Close closes the file.
func (b *Book) Close() {
	b.mutex.Lock()
	defer b.mutex.Unlock()
	if b.file != nil {
		b.file.Close()
		b.file = nil
	}
}
