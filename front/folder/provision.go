package folder

// HasProvision says whether there may be records of SCIM in the newest journal, or in the newest snapshot, and so whether
// there are any at all: journals begun later may have them, too, and later snapshots do.
func (f *Folder) HasProvision() (bool, error) {
	for _, kind := range []struct{ name, word string }{{journalName, "journal"}, {snapshotName, "snapshot"}} {
		numbers, err := numbered(f.path, kind.name)
		if err != nil {
			return false, err
		}
		if len(numbers) == 0 {
			continue
		}
		head, err := headOf(named(f.path, kind.name, numbers[len(numbers)-1]), kind.word)
		if err != nil || head.Format >= provisionFrom {
			return err == nil, err
		}
	}
	return false, nil
}
