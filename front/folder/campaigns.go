package folder

import (
	"errors"
	"fmt"
	"os"

	"review-front/frame"
)

// CampaignName begins the names of files of items of campaigns, each with the serial of its campaign.
const CampaignName = "campaign-"

// Campaign is the file of the items of a campaign.
func Campaign(serial uint64) string { return fmt.Sprintf("%s%0*d", CampaignName, digits, serial) }

// copyCampaigns copies the items of the campaigns of another folder up to a serial: where there is no state of before,
// they can't be found anew.
func (f *Folder) copyCampaigns(from string, last uint64) error {
	serials, err := numbered(from, CampaignName)
	if err != nil {
		return err
	}
	for _, serial := range serials {
		if serial > last {
			break
		}
		content, err := os.ReadFile(named(from, CampaignName, serial))
		if err != nil {
			return fmt.Errorf("the items of a campaign: %w", err)
		}
		file, err := f.replace(named(f.path, CampaignName, serial), content)
		if err != nil {
			return fmt.Errorf("the items of a campaign: %w", err)
		}
		if err := file.Close(); err != nil {
			return fmt.Errorf("the items of a campaign: %w", err)
		}
	}
	return nil
}

// EachCampaign calls for each record of a campaign that is on disk, in their order. Journals that can have none aren't
// read.
func (f *Folder) EachCampaign(call func(Entry) error) error {
	numbers, err := numbered(f.path, journalName)
	if err != nil {
		return err
	}
	for _, number := range numbers {
		head, err := headOf(f.journal(number), "journal")
		if err != nil {
			return err
		}
		if !head.hasCampaigns() {
			continue
		}
		j, err := walk(f.path, number, f.most(number), func(_ *journal, entry Entry, _ Place) error {
			if !entry.IsCampaign() {
				return nil
			}
			return call(entry)
		})
		if errors.Is(err, frame.ErrTorn) {
			return j.damage("it ends within a record")
		}
		if err != nil {
			return err
		}
	}
	return nil
}

// Raw is an edit as the chain counts it, or nothing where its journal has no chain.
func (e Entry) Raw() []byte { return e.raw }
