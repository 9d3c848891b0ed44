package served

import (
	"bytes"
	"context"
	"crypto/sha256"
	"encoding/hex"
	"encoding/json"
	"fmt"
	"strconv"
)

// Send has edits be made all together behind a serial, and gives the serial behind them. It is sent again, with its
// key, until it is known what became of it.
func (f *Front) Send(ctx context.Context, edits [][]byte, serial uint64) (uint64, error) {
	body := append(bytes.Join(edits, []byte("\n")), '\n')
	sum := sha256.Sum256(append([]byte(strconv.FormatUint(serial, 10)+"\n"), body...))
	got, err := f.post(ctx, "/lines?whole=1", body, map[string]string{
		"If-Match":        strconv.FormatUint(serial, 10),
		"Idempotency-Key": "source-" + hex.EncodeToString(sum[:]),
	})
	if err != nil {
		return serial, err
	}
	replies, _, err := repliesIn(got.body, len(edits))
	if err != nil {
		return serial, err
	}
	var last struct{ Changes, Serial *uint64 }
	if err := json.Unmarshal(replies[len(replies)-1], &last); err != nil || last.Serial == nil {
		return serial, fmt.Errorf("an edit is answered %.200s", replies[len(replies)-1])
	}
	return *last.Serial, nil
}
