package line

import "encoding/json"

// ReadCampaign reads what is answered to a record of a campaign that is taken: of which it is, and its serial.
func ReadCampaign(reply []byte) (name string, serial uint64, ok bool) {
	var said struct {
		Campaign string
		Serial   uint64
	}
	err := json.Unmarshal(reply, &said)
	return said.Campaign, said.Serial, err == nil && said.Campaign != "" && said.Serial != 0
}
