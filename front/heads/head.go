// Package heads says, by a few bytes, what all edits up to one were: a head has the value of the journal's chain behind
// an edit. Who has a head from outside the machine can see whether any edit up to it was changed since, taken away or
// brought in, whoever did it.
package heads

import (
	"bytes"
	"crypto/ed25519"
	"crypto/sha256"
	"crypto/x509"
	"encoding/base64"
	"encoding/hex"
	"encoding/json"
	"encoding/pem"
	"errors"
	"fmt"
	"os"
	"time"

	"review-front/folder"
)

const (
	kind   = "head"
	format = 1
	// keyBytes is how much of a key's checksum is told as its name.
	keyBytes = 8
)

// Head is one, as a line of JSON.
type Head struct {
	Kind   string       `json:"kind"`
	Format int          `json:"format"`
	Serial uint64       `json:"serial"` // that of the edit
	Chain  folder.Chain `json:"chain"`  // what the chain is behind it
	Made   time.Time    `json:"made"`   // when the head was made
	// Why is `day`, `snapshot`, `kept`, where journals up to it were taken away, or `asked`.
	Why    string `json:"why"`
	Stream string `json:"stream,omitempty"` // of which stream the serials are sequences
	// Before is the SHA-256 of the line of the head before it in the folder.
	Before string `json:"before,omitempty"`
	Key    string `json:"key,omitempty"` // which key signed it
	// Signature is that of the line without it.
	Signature string `json:"signature,omitempty"`
}

// line is the head as a line, without its newline.
func (h Head) line() ([]byte, error) {
	written, err := json.Marshal(h)
	if err != nil {
		return nil, fmt.Errorf("a head: %w", err)
	}
	return written, nil
}

// sumOf is the SHA-256 of a line.
func sumOf(line []byte) string {
	sum := sha256.Sum256(line)
	return hex.EncodeToString(sum[:])
}

// Key is a key that signs heads.
type Key struct{ private ed25519.PrivateKey }

// nameOf names a key.
func nameOf(key ed25519.PublicKey) string {
	sum := sha256.Sum256(key)
	return hex.EncodeToString(sum[:keyBytes])
}

// ReadKey reads a key from a file, as `openssl genpkey -algorithm ed25519` writes it.
func ReadKey(name string) (*Key, error) {
	content, err := block(name)
	if err != nil {
		return nil, err
	}
	read, err := x509.ParsePKCS8PrivateKey(content)
	private, is := read.(ed25519.PrivateKey)
	if err != nil || !is {
		return nil, fmt.Errorf("%s isn't a key of Ed25519", name)
	}
	return &Key{private: private}, nil
}

// ReadPublic reads the key by which signatures are looked at, as `openssl pkey -pubout` writes it.
func ReadPublic(name string) (ed25519.PublicKey, error) {
	content, err := block(name)
	if err != nil {
		return nil, err
	}
	read, err := x509.ParsePKIXPublicKey(content)
	public, is := read.(ed25519.PublicKey)
	if err != nil || !is {
		return nil, fmt.Errorf("%s isn't a public key of Ed25519", name)
	}
	return public, nil
}

// block reads the first block of a file in PEM.
func block(name string) ([]byte, error) {
	content, err := os.ReadFile(name)
	if err != nil {
		return nil, err
	}
	found, _ := pem.Decode(content)
	if found == nil {
		return nil, fmt.Errorf("%s isn't a key in PEM", name)
	}
	return found.Bytes, nil
}

// sign signs a head.
func (k *Key) sign(h *Head) error {
	if k == nil {
		return nil
	}
	h.Key, h.Signature = nameOf(k.private.Public().(ed25519.PublicKey)), ""
	written, err := h.line()
	if err != nil {
		return err
	}
	h.Signature = base64.StdEncoding.EncodeToString(ed25519.Sign(k.private, written))
	return nil
}

// signed says whether a head is signed by a key, or there is none.
func (k *Key) signed(h Head) bool {
	return k == nil || h.Signed(k.private.Public().(ed25519.PublicKey)) == nil
}

// ErrUnsigned says that a head isn't signed by a key.
var ErrUnsigned = errors.New("it isn't signed by the key")

// Signed sees that a head is signed by a key.
func (h Head) Signed(key ed25519.PublicKey) error {
	signature, err := base64.StdEncoding.DecodeString(h.Signature)
	h.Signature = ""
	written, wrong := h.line()
	if err != nil || wrong != nil || !ed25519.Verify(key, written, signature) {
		return ErrUnsigned
	}
	return nil
}

// Read reads heads, each a line.
func Read(content []byte) ([]Head, error) {
	var all []Head
	for i, line := range bytes.Split(content, []byte("\n")) {
		if len(bytes.TrimSpace(line)) == 0 {
			continue
		}
		var h Head
		if err := json.Unmarshal(line, &h); err != nil || h.Kind != kind || h.Format != format {
			return all, fmt.Errorf("line %d isn't a head", i+1)
		}
		all = append(all, h)
	}
	return all, nil
}
