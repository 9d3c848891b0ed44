package check

import (
	"crypto/x509"
	"encoding/base64"
	"encoding/pem"
	"errors"
	"net/http"
	"net/url"
	"os"
	"path/filepath"
	"strings"
	"unicode"
	"unicode/utf8"

	"review-front/places"
)

// Known is by what somebody is known whom a proxy sends on.
type Known struct {
	Claims func(token string) (map[string][]string, error) // of a token that the issuer signed; nil: there is no issuer
	NameIn func(certificate *x509.Certificate) string
}

// The reasons why nobody is known.
var (
	errNobody      = errors.New("nothing says who asks")
	errScheme      = errors.New("the field Authorization has no bearer token")
	errIssuer      = errors.New("no issuer of tokens is known")
	errClaim       = errors.New("the token has no such claim, or several")
	errCertificate = errors.New("the certificate can't be read")
	errName        = errors.New("the name is too long, or has signs that aren't seen")
)

// read reads where it stands who asks; files stand in a folder.
func (s *subject) read(root places.Node, folder string) error {
	at, err := root.Needed("subject")
	if err == nil {
		err = at.Only("authority", "certificate", "challenge", "claim", "claims", "header", "prefix", "token")
	}
	if err != nil {
		return err
	}
	for key, to := range map[string]*string{"header": &s.header, "token": &s.token, "certificate": &s.certificate} {
		if *to, err = fieldAt(at, key); err != nil {
			return err
		}
	}
	if one := s.header + s.token + s.certificate; one != s.field() || one == "" {
		return at.Fault("one of header, token and certificate names the field in which it stands who asks")
	}
	if s.prefix, _, err = at.Text("prefix"); err != nil {
		return err
	}
	if s.challenge, _, err = at.Name("challenge"); err != nil {
		return err
	}
	if strings.ContainsAny(s.challenge, "\r\n") {
		return at.Fault("the challenge is one line")
	}
	if err := s.readToken(at); err != nil {
		return err
	}
	return s.readAuthority(at, folder)
}

// readToken reads what belongs to a token.
func (s *subject) readToken(at places.Node) (err error) {
	claim, there, err := at.Name("claim")
	if err != nil {
		return err
	}
	if s.claims, err = propertiesAt(at, "claims", func(string) bool { return true }); err != nil {
		return err
	}
	if s.token == "" {
		if there || len(s.claims) > 0 {
			return at.Fault("claims are those of a token")
		}
		return nil
	}
	if s.claim = "sub"; there {
		s.claim = claim
	}
	if s.challenge == "" {
		s.challenge = "Bearer"
	}
	return nil
}

// readAuthority reads which certificates sign those of clients.
func (s *subject) readAuthority(at places.Node, folder string) error {
	file, there, err := at.Name("authority")
	if err != nil {
		return err
	}
	if there != (s.certificate != "") {
		return at.Fault("certificate and authority go together")
	}
	if !there {
		return nil
	}
	if !filepath.IsAbs(file) {
		file = filepath.Join(folder, file)
	}
	content, err := os.ReadFile(file)
	if err != nil {
		return err
	}
	if s.authority = x509.NewCertPool(); !s.authority.AppendCertsFromPEM(content) {
		return at.Fault("%s has no certificate", file)
	}
	return nil
}

// field is the field in which it stands who asks.
func (s *subject) field() string {
	switch {
	case s.header != "":
		return s.header
	case s.token != "":
		return s.token
	}
	return s.certificate
}

// apart sees that no field has two meanings.
func (s *subject) apart(m *Mapping) error {
	if m.method != "" && (m.method == m.uri || s.field() == m.method || s.field() == m.uri) {
		return errors.New("a field has two meanings")
	}
	return nil
}

// of is who asks, with the claims of his token, by what stands in the field.
func (s *subject) of(written string, known Known) (name string, claims map[string][]string, err error) {
	switch {
	case written == "":
		err = errNobody
	case s.token != "":
		name, claims, err = s.ofToken(written, known)
	case s.certificate != "":
		name, err = s.ofCertificate(written, known)
	default:
		name = written
	}
	if err != nil {
		return "", nil, err
	}
	if name == "" {
		return "", nil, errNobody
	}
	hidden := strings.IndexFunc(name, func(r rune) bool { return !unicode.IsPrint(r) }) >= 0
	if hidden || !utf8.ValidString(name) || strings.TrimSpace(name) != name || len(name) > places.NameBytes {
		return "", nil, errName
	}
	return s.prefix + name, claims, nil
}

// ofToken is whom a token names.
func (s *subject) ofToken(written string, known Known) (string, map[string][]string, error) {
	scheme, token, ok := strings.Cut(written, " ")
	if ok = ok && strings.EqualFold(scheme, "Bearer"); !ok && s.token == http.CanonicalHeaderKey("Authorization") {
		return "", nil, errScheme
	}
	if !ok {
		token = written
	}
	if known.Claims == nil {
		return "", nil, errIssuer
	}
	claims, err := known.Claims(strings.TrimSpace(token))
	if err != nil {
		return "", nil, err
	}
	if len(claims[s.claim]) != 1 {
		return "", nil, errClaim
	}
	return claims[s.claim][0], claims, nil
}

// ofCertificate is whom a certificate names that a client showed the proxy: as PEM with escapes, or in base64. It is
// looked at here by whom it is signed; that the client has its key the proxy knows.
func (s *subject) ofCertificate(written string, known Known) (string, error) {
	if strings.Contains(written, "%") {
		plain, err := url.PathUnescape(written)
		if err != nil {
			return "", errCertificate
		}
		written = plain
	}
	var content []byte
	if block, _ := pem.Decode([]byte(written)); block != nil {
		content = block.Bytes
	} else if read, err := base64.StdEncoding.DecodeString(strings.Trim(written, ":")); err == nil {
		content = read
	}
	certificate, err := x509.ParseCertificate(content)
	if err != nil {
		return "", errCertificate
	}
	_, err = certificate.Verify(x509.VerifyOptions{
		Roots: s.authority, KeyUsages: []x509.ExtKeyUsage{x509.ExtKeyUsageClientAuth},
	})
	if err != nil {
		return "", err
	}
	return known.NameIn(certificate), nil
}
