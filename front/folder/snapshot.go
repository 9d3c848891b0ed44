package folder

import (
	"errors"
	"fmt"
	"io"
	"os"
	"time"

	"review-front/frame"
)

// Snapshot is the lines of a dump, which make a program that holds nothing the same as at a serial.
type Snapshot struct {
	Serial uint64
	Lines  [][]byte
	// Records are the lines of SCIM's resources at that serial, which no program is told.
	Records [][]byte
}

// Snapshots are the serials for which there is a snapshot, in their order.
func (f *Folder) Snapshots() ([]uint64, error) { return numbered(f.path, snapshotName) }

// Base reads the newest snapshot that stands for a serial or an earlier one. Where there is none it is that of a new
// program, if the journals begin there, or else the first snapshot.
func (f *Folder) Base(most uint64) (*Snapshot, Head, error) {
	serials, err := f.Snapshots()
	if err != nil {
		return nil, Head{}, err
	}
	journals, err := numbered(f.path, journalName)
	if err != nil {
		return nil, Head{}, err
	}
	// From one that is kept longer than the journals behind it nothing goes on.
	for len(serials) > 0 && len(journals) > 0 && serials[0]+1 < journals[0] {
		serials = serials[1:]
	}
	for i := len(serials) - 1; i >= 0; i-- {
		if serials[i] <= most {
			return f.read(serials[i])
		}
	}
	if len(serials) > 0 && (len(journals) == 0 || journals[0] > 1) {
		return f.read(serials[0])
	}
	return &Snapshot{}, Head{}, nil
}

// Nearest reads the snapshot from which the state of a serial is soonest had: its own, or as Base has it.
func (f *Folder) Nearest(serial uint64) (*Snapshot, error) {
	snapshot, _, err := f.read(serial)
	if errors.Is(err, os.ErrNotExist) {
		snapshot, _, err = f.Base(serial)
	}
	return snapshot, err
}

// KeepDaily has a snapshot of each of so many last days stay.
func (f *Folder) KeepDaily(days int) { f.daily = days }

// dailies are those snapshots: of each day the last one.
func (f *Folder) dailies(serials []uint64, now time.Time) map[uint64]bool {
	stay, seen := map[uint64]bool{}, map[string]bool{}
	first := now.UTC().AddDate(0, 0, -f.daily)
	for i := len(serials) - 1; i >= 0 && f.daily > 0; i-- {
		head, err := headOf(f.snapshot(serials[i]), "snapshot")
		day := head.Time.UTC().Format("2006-01-02")
		if err == nil && head.Time.After(first) && !seen[day] {
			seen[day], stay[serials[i]] = true, true
		}
	}
	return stay
}

func (f *Folder) read(serial uint64) (*Snapshot, Head, error) {
	name := f.snapshot(serial)
	file, err := os.Open(name)
	if err != nil {
		return nil, Head{}, fmt.Errorf("a snapshot: %w", err)
	}
	defer file.Close()
	records := frame.NewReader(file, name)
	snapshot, head, err := readSnapshot(records)
	if err == nil && head.After != serial {
		return nil, Head{}, records.Damage("its head has another serial than its name")
	}
	return snapshot, head, err
}

// readSnapshot reads the file of a snapshot.
func readSnapshot(records *frame.Reader) (*Snapshot, Head, error) {
	head, err := readHead(records, "snapshot")
	snapshot := &Snapshot{Serial: head.After}
	for err == nil && len(snapshot.Lines)+len(snapshot.Records) < head.Lines+head.Records {
		var line []byte
		switch line, err = records.Next(); {
		case err != nil:
		case len(snapshot.Lines) < head.Lines:
			snapshot.Lines = append(snapshot.Lines, line)
		default:
			snapshot.Records = append(snapshot.Records, line)
		}
	}
	if err == nil {
		if _, err = records.Next(); err == io.EOF {
			return snapshot, head, nil
		}
		return nil, Head{}, records.Damage("it has more than its lines")
	}
	// A snapshot is renamed once it is whole: no crash cuts it off.
	if errors.Is(err, frame.ErrTorn) || errors.Is(err, io.EOF) {
		err = records.Damage("it ends before its lines do")
	}
	return nil, Head{}, err
}

// Keep writes a snapshot aside, and renames it once it is on disk.
func (f *Folder) Keep(snapshot *Snapshot) error {
	f.mutex.Lock()
	head := f.head
	f.mutex.Unlock()
	part, chain, err := partOf(f.path, snapshot.Serial, f.most)
	if err != nil {
		return err
	}
	if part == nil {
		chain = f.begunAt(snapshot.Serial)
	}
	head.Kind, head.After, head.Lines, head.Before = "snapshot", snapshot.Serial, len(snapshot.Lines), part
	head.Chain, head.Older, head.Records, head.Format = chain, nil, len(snapshot.Records), chainedFrom
	if head.Campaigns = false; head.Records > 0 {
		head.Format = provisionFrom
	}
	name := f.snapshot(snapshot.Serial)
	aside := name + asideName
	err = f.writeAside(aside, head, append(append([][]byte(nil), snapshot.Lines...), snapshot.Records...))
	if err == nil {
		err = os.Rename(aside, name)
	}
	if err != nil {
		os.Remove(aside)
		return fmt.Errorf("a snapshot: %w", err)
	}
	return f.syncFolder()
}

func (f *Folder) writeAside(aside string, head Head, lines [][]byte) error {
	file, err := os.OpenFile(aside, os.O_CREATE|os.O_TRUNC|os.O_WRONLY, 0o600)
	if err != nil {
		return err
	}
	defer file.Close()
	records, err := headRecord(head)
	if err != nil {
		return err
	}
	for _, line := range lines {
		records = frame.Append(records, line)
		if len(records) > probeBytes {
			if _, err := file.Write(records); err != nil {
				return err
			}
			records = records[:0]
		}
	}
	if _, err := file.Write(records); err != nil {
		return err
	}
	return file.Sync()
}

// Trim takes away the snapshots that nobody needs: all before the newest that stands for `needed` or an earlier
// serial, but never one of the two newest. Where `before` isn't zero it takes away the journals that end before the
// first snapshot that stays, and were last written before that time.
func (f *Folder) Trim(needed uint64, before time.Time) error {
	serials, err := f.Snapshots()
	if err != nil {
		return err
	}
	first := len(serials) - 2
	for first > 0 && serials[first] > needed {
		first--
	}
	if first < 0 {
		return nil
	}
	stay := f.dailies(serials, time.Now())
	for _, serial := range serials[:first] {
		if stay[serial] {
			continue
		}
		if err := os.Remove(f.snapshot(serial)); err != nil {
			return fmt.Errorf("an old snapshot: %w", err)
		}
	}
	if before.IsZero() {
		return nil
	}
	return f.trimJournals(serials[first], before)
}

func (f *Folder) trimJournals(from uint64, before time.Time) error {
	numbers, err := numbered(f.path, journalName)
	if err != nil {
		return err
	}
	old := 0
	for ; old+1 < len(numbers) && numbers[old+1] <= from+1; old++ {
		about, err := os.Stat(f.journal(numbers[old]))
		if err != nil {
			return fmt.Errorf("an old journal: %w", err)
		}
		if !about.ModTime().Before(before) {
			break
		}
	}
	if old == 0 {
		return nil
	}
	// First it is said that they go: one that is gone then isn't missed.
	f.mutex.Lock()
	err = f.writeSpan(numbers[old], f.began)
	f.mutex.Unlock()
	if err != nil {
		return err
	}
	for _, number := range numbers[:old] {
		if err := os.Remove(f.journal(number)); err != nil {
			return fmt.Errorf("an old journal: %w", err)
		}
	}
	return nil
}
