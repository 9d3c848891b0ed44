package source

import (
	"fmt"
	"strconv"
	"strings"
)

// share is so many in a hundred.
type share struct {
	per   float64
	given bool
}

func (s *share) String() string { return strconv.FormatFloat(s.per, 'f', -1, 64) + "%" }

// Set reads it, as 5% or 0.5%.
func (s *share) Set(written string) error {
	per, err := strconv.ParseFloat(strings.TrimSuffix(written, "%"), 64)
	if err != nil || !strings.HasSuffix(written, "%") || !(per >= 0 && per <= 100) {
		return fmt.Errorf("it is from 0%% to 100%%, and not %q", written)
	}
	s.per, s.given = per, true
	return nil
}

// exceeds says whether a part of all is more.
func (s share) exceeds(part, all int) bool {
	return part > 0 && float64(part)*100 > s.per*float64(all)
}
