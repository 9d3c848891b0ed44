package campaigns

import (
	"bytes"
	"crypto/sha256"
	"encoding/gob"
	"fmt"
)

// Marshal writes items, with a checksum before them.
func (i *Items) Marshal() ([]byte, error) {
	var to bytes.Buffer
	to.Write(make([]byte, sha256.Size))
	if err := gob.NewEncoder(&to).Encode(i); err != nil {
		return nil, fmt.Errorf("the items of a campaign: %w", err)
	}
	content := to.Bytes()
	sum := sha256.Sum256(content[sha256.Size:])
	copy(content, sum[:])
	return content, nil
}

// Unmarshal reads items, of the campaign that was opened at a serial.
func Unmarshal(content []byte, serial uint64) (*Items, error) {
	if len(content) < sha256.Size || sha256.Sum256(content[sha256.Size:]) != *(*[sha256.Size]byte)(content) {
		return nil, fmt.Errorf("the items of a campaign aren't sound")
	}
	i := &Items{}
	if err := gob.NewDecoder(bytes.NewReader(content[sha256.Size:])).Decode(i); err != nil {
		return nil, fmt.Errorf("the items of a campaign: %w", err)
	}
	if i.Serial != serial {
		return nil, fmt.Errorf("the items are of the campaign of serial %d", i.Serial)
	}
	i.index()
	i.begin()
	return i, nil
}
