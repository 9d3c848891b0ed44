package web

import (
	"context"
	"crypto/sha256"
)

// otherwise gives those of some requests whose answers at two serials differ, though their decisions are equal: what
// edits changed says no more than decisions, so both states are asked.
func (s *Server) otherwise(ctx context.Context, asked span, n *differences, back []request) ([]request, *problem) {
	if len(back) == 0 {
		return nil, nil
	}
	n.sort(back)
	var lines [][]byte
	for _, of := range back {
		lines = append(lines, []byte(`{"do":"cell","person":"`+n.names[of.person]+`","action":"`+n.names[of.action]+
			`","resource":"`+n.names[of.resource]+`"}`))
	}
	before, told := s.answersAt(ctx, asked.since, lines)
	if told != nil {
		return nil, told
	}
	after, told := s.answersAt(ctx, asked.until, lines)
	if told != nil {
		return nil, told
	}
	var differ []request
	for i, of := range back {
		if before[i] != after[i] {
			differ = append(differ, of)
		}
	}
	return differ, nil
}

// answersAt asks the state of a serial, and gives checksums of the answers.
func (s *Server) answersAt(ctx context.Context, serial uint64, lines [][]byte) ([][sha256.Size]byte, *problem) {
	replies, err := s.Keeper.At(ctx, serial, lines...)
	if err != nil {
		told := problemFor(err)
		return nil, &told
	}
	var sums [][sha256.Size]byte
	for _, reply := range replies {
		if told, refused := problemOf(reply.Body); refused {
			return nil, &told
		}
		sums = append(sums, sha256.Sum256(reply.Body))
	}
	return sums, nil
}
