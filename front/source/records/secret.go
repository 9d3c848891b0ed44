package records

import (
	"os"
	"strings"

	"review-front/source/form"
)

// secret is what stands in a file, without the end of its line.
func secret(s *form.Source, file string) (string, error) {
	if file == "" {
		return "", nil
	}
	written, err := os.ReadFile(s.Beside(file))
	return strings.TrimRight(string(written), "\r\n"), err
}
