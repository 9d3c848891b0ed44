package web

import (
	"bytes"
	"crypto/sha256"
	"encoding/base64"
	"io"
	"net/http"
	"strings"

	"review-front/keeper"
)

// digestHeader is the field that says of an answer the SHA-256 of its body, so that who has kept or printed it can be
// shown later that it was this one.
const digestHeader = "Digest"

// digested says the SHA-256 of a body in the head of its answer.
func digested(w http.ResponseWriter, body io.Reader) {
	sum := sha256.New()
	if _, err := io.Copy(sum, body); err == nil {
		w.Header()[digestHeader] = []string{"sha-256=" + base64.StdEncoding.EncodeToString(sum.Sum(nil))}
	}
}

// digestedReply says it of a reply with the newline behind it.
func digestedReply(w http.ResponseWriter, reply keeper.Reply) {
	rest := io.Reader(strings.NewReader(""))
	if reply.Rest != nil {
		rest = reply.Rest.Reader()
	}
	digested(w, io.MultiReader(bytes.NewReader(reply.Body), rest, strings.NewReader("\n")))
}
