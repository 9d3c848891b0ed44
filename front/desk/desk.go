// Package desk has the files of the auditor's desk: a page that shows the table live in a browser, and says why.
package desk

import (
	"crypto/sha256"
	"embed"
	"encoding/base64"
	"path"
)

//go:embed files
var files embed.FS

// Policy is what a browser lets the page do: it runs, draws with and asks what is of its own address alone, and makes
// no element of a text. The one policy of Trusted Types is that by which the page names its worker.
const Policy = "default-src 'none'; script-src 'self'; style-src 'self'; img-src 'self'; connect-src 'self'; " +
	"worker-src 'self'; base-uri 'none'; form-action 'none'; frame-ancestors 'none'; " +
	"require-trusted-types-for 'script'; trusted-types desk"

// Page is the file that a browser is answered first.
const Page = "index.html"

// File is one of the page's files.
type File struct {
	Type    string // its media type
	Tag     string // what tells it from an other version of it, as the field ETag has it
	Content []byte
}

// types are those of files by the ends of their names: what a machine knows of them beside isn't asked.
var types = map[string]string{
	".html": "text/html; charset=utf-8", ".js": "text/javascript; charset=utf-8", ".css": "text/css; charset=utf-8",
	".svg": "image/svg+xml",
}

// Open finds a file by its name.
func Open(name string) (File, bool) {
	content, err := files.ReadFile(path.Join("files", path.Base(name)))
	if err != nil {
		return File{}, false
	}
	sum := sha256.Sum256(content)
	tag := `"` + base64.RawURLEncoding.EncodeToString(sum[:12]) + `"`
	return File{Type: types[path.Ext(name)], Tag: tag, Content: content}, true
}

// Names are those of all files.
func Names() []string {
	var names []string
	all, err := files.ReadDir("files")
	if err != nil {
		return nil
	}
	for _, one := range all {
		names = append(names, one.Name())
	}
	return names
}
