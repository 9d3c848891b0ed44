package access

import (
	"crypto"
	"crypto/ecdsa"
	"crypto/ed25519"
	"crypto/elliptic"
	"crypto/rsa"
	"crypto/sha256"
	"encoding/base64"
	"encoding/json"
	"fmt"
	"math/big"
	"os"
)

// leastBits is how long a key of RSA has to be.
const leastBits = 2048

// key is a key by which an issuer signs, with its one algorithm (RFC 7518, 3.1).
type key struct {
	id        string
	algorithm string
	signed    func(text, signature []byte) bool
}

// written is a key as a set of JSON Web Keys has it (RFC 7517).
type written struct {
	Type      string `json:"kty"`
	Use       string `json:"use"`
	Algorithm string `json:"alg"`
	ID        string `json:"kid"`
	Curve     string `json:"crv"`
	N, E      string
	X, Y      string
}

// readKeys reads a set of keys. Those that are for something else are passed over, and one at least has to be left.
func readKeys(path string) ([]key, error) {
	content, err := os.ReadFile(path)
	if err != nil {
		return nil, fmt.Errorf("the keys of the issuer: %w", err)
	}
	var set struct{ Keys []written }
	if err := json.Unmarshal(content, &set); err != nil {
		return nil, fmt.Errorf("the keys of the issuer: %s: %w", path, err)
	}
	var keys []key
	for _, one := range set.Keys {
		if k, ok := one.key(); ok && (one.Use == "" || one.Use == "sig") {
			keys = append(keys, k)
		}
	}
	if len(keys) == 0 {
		return nil, fmt.Errorf("the keys of the issuer: %s has none of RS256, PS256, ES256 and EdDSA", path)
	}
	return keys, nil
}

// key is the key that is written, if its algorithm is known here. One of RSA says which it is, or is for RS256.
func (w written) key() (key, bool) {
	k := key{id: w.ID, algorithm: w.Algorithm}
	switch {
	case w.Type == "RSA" && (w.Algorithm == "" || w.Algorithm == "RS256" || w.Algorithm == "PS256"):
		public, ok := w.rsa()
		if k.algorithm == "" {
			k.algorithm = "RS256"
		}
		k.signed = func(text, signature []byte) bool {
			sum := sha256.Sum256(text)
			if k.algorithm == "PS256" {
				return rsa.VerifyPSS(public, crypto.SHA256, sum[:], signature, &rsa.PSSOptions{SaltLength: sha256.Size}) == nil
			}
			return rsa.VerifyPKCS1v15(public, crypto.SHA256, sum[:], signature) == nil
		}
		return k, ok
	case w.Type == "EC" && w.Curve == "P-256" && (w.Algorithm == "" || w.Algorithm == "ES256"):
		k.algorithm = "ES256"
		public, ok := w.ecdsa()
		k.signed = func(text, signature []byte) bool {
			sum := sha256.Sum256(text)
			return len(signature) == 64 && ecdsa.Verify(public, sum[:], numberOf(signature[:32]), numberOf(signature[32:]))
		}
		return k, ok
	case w.Type == "OKP" && w.Curve == "Ed25519" && (w.Algorithm == "" || w.Algorithm == "EdDSA"):
		k.algorithm = "EdDSA"
		public := bytesOf(w.X)
		k.signed = func(text, signature []byte) bool { return ed25519.Verify(public, text, signature) }
		return k, len(public) == ed25519.PublicKeySize
	}
	return k, false
}

func (w written) rsa() (*rsa.PublicKey, bool) {
	public := &rsa.PublicKey{N: numberOf(bytesOf(w.N)), E: int(numberOf(bytesOf(w.E)).Int64())}
	return public, public.N.BitLen() >= leastBits && public.E > 1
}

func (w written) ecdsa() (*ecdsa.PublicKey, bool) {
	public := &ecdsa.PublicKey{Curve: elliptic.P256(), X: numberOf(bytesOf(w.X)), Y: numberOf(bytesOf(w.Y))}
	return public, public.Curve.IsOnCurve(public.X, public.Y)
}

// bytesOf reads base64url, and gives nothing where it isn't.
func bytesOf(text string) []byte {
	read, err := base64.RawURLEncoding.DecodeString(text)
	if err != nil {
		return nil
	}
	return read
}

func numberOf(bytes []byte) *big.Int { return new(big.Int).SetBytes(bytes) }
