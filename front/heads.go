package main

import (
	"context"
	"crypto/ed25519"
	"errors"
	"fmt"
	"io"
	"os"
	"path/filepath"
	"sort"
	"strings"
	"time"

	"review-front/folder"
	"review-front/heads"
	"review-front/jetstream"
	"review-front/logs"
)

// heads are those of the folder's chain.
func (o options) heads(held *folder.Folder, log *logs.Log) (*heads.Book, error) {
	made := heads.Options{Folder: held, To: o.headsTo, Log: log, Put: o.putHead}
	if o.signKey != "" {
		key, err := heads.ReadKey(o.signKey)
		if err != nil {
			return nil, fmt.Errorf("the key of --sign-key: %w", err)
		}
		made.Key = key
	}
	return heads.Open(made)
}

// putHead puts a head into a stream.
func (o options) putHead(ctx context.Context, to string, line []byte) error {
	stream, err := headStream(to, o.stream)
	if err != nil {
		return err
	}
	return jetstream.PutHead(ctx, stream, line)
}

// headStream is a stream of heads as it is named: nats://, its servers with commas between, a slash, its name. The rest
// of how it is reached is as that of edits.
func headStream(to string, like jetstream.Options) (jetstream.Options, error) {
	at := strings.LastIndexByte(to, '/')
	like.Servers, like.Stream = to[:at], to[at+1:]
	if strings.HasSuffix(like.Servers, "/") || like.Stream == "" || strings.ContainsAny(like.Stream, " \t\r\n.*>\\") {
		return like, errors.New("no stream is named, as nats://host:4222/heads does")
	}
	return like, nil
}

// headsToStream says whether heads are sent to a stream.
func (o options) headsToStream() bool {
	for _, to := range o.headsTo {
		if heads.IsStream(to) {
			return true
		}
	}
	return false
}

// wrongHeads says what is wrong with where heads are sent, or nothing.
func (o options) wrongHeads() string {
	for _, to := range o.headsTo {
		if !heads.IsStream(to) {
			continue
		}
		if _, err := headStream(to, o.stream); err != nil {
			return "--heads-to: " + err.Error()
		}
		if !jetstream.Built {
			return "--heads-to names a stream, of which this front was built without the client"
		}
	}
	return ""
}

// given are the heads by which a folder is looked at.
type given struct {
	key     ed25519.PublicKey // nil: signatures aren't looked at
	outside []heads.Head
	inside  []heads.Head // those that stand in the folder
}

// headsTime is how long it may take to read a stream of heads.
const headsTime = 5 * time.Minute

// readHeads reads a file of heads, or a stream.
func readHeads(name string, stream jetstream.Options) ([]byte, error) {
	if !heads.IsStream(name) {
		return os.ReadFile(name)
	}
	stream, err := headStream(name, stream)
	if err != nil {
		return nil, err
	}
	ctx, cancel := context.WithTimeout(context.Background(), headsTime)
	defer cancel()
	return jetstream.Heads(ctx, stream)
}

// readOutside reads heads from outside, and the key that is to have signed them.
func readOutside(key string, files []string, stream jetstream.Options) (*given, error) {
	g := &given{}
	var err error
	if key != "" {
		if g.key, err = heads.ReadPublic(key); err != nil {
			return nil, err
		}
	}
	for _, name := range files {
		content, err := readHeads(name, stream)
		if err != nil {
			return nil, err
		}
		some, err := heads.Read(content)
		if err != nil {
			return nil, fmt.Errorf("%s: %w", name, err)
		}
		g.outside = append(g.outside, some...)
	}
	sort.SliceStable(g.outside, func(i, j int) bool { return g.outside[i].Serial < g.outside[j].Serial })
	return g, nil
}

// readGiven reads heads, and the key that is to have signed them.
func readGiven(journal, key string, files []string, stream jetstream.Options) (*given, error) {
	g, err := readOutside(key, files, stream)
	if err != nil {
		return nil, err
	}
	content, err := os.ReadFile(filepath.Join(journal, heads.FileName))
	if err != nil && !errors.Is(err, os.ErrNotExist) {
		return nil, err
	}
	g.inside, _ = heads.Read(content) // what isn't sound there tells nothing
	sort.SliceStable(g.inside, func(i, j int) bool { return g.inside[i].Serial < g.inside[j].Serial })
	return g, nil
}

// compare compares heads with the chain of a folder, and says whether all are as it is.
func (g *given) compare(journal string, to io.Writer) (bool, error) {
	serials := map[uint64]bool{}
	for _, h := range append(append([]heads.Head(nil), g.outside...), g.inside...) {
		serials[h.Serial] = true
	}
	chains, err := folder.ReadChains(journal, serials)
	if err != nil {
		return false, err
	}
	sound, same, good := true, 0, uint64(0)
	for _, h := range g.all() {
		what := g.wrong(h, chains)
		if what == "" {
			same++
			good = h.Serial
			continue
		}
		sound = false
		fmt.Fprintf(to, "the head of serial %d, made %s: %s\n", h.Serial, h.Made.Format("2006-01-02T15:04:05Z"), what)
		if good > 0 {
			fmt.Fprintf(to, "up to serial %d all is as a head says\n", good)
		}
		break
	}
	if sound && same > 0 {
		fmt.Fprintf(to, "%d heads are as the journals are, the last of serial %d\n", same, good)
	}
	return sound, nil
}

// all are the heads by which something is looked at, by their serials: those from outside, and of those in the folder
// such as are signed, since whoever may write there may have made the others.
func (g *given) all() []heads.Head {
	all := append([]heads.Head(nil), g.outside...)
	for _, h := range g.inside {
		if g.key != nil && h.Signed(g.key) == nil {
			all = append(all, h)
		}
	}
	sort.SliceStable(all, func(i, j int) bool { return all[i].Serial < all[j].Serial })
	return all
}

// wrong says in which way a folder isn't as a head says, or nothing.
func (g *given) wrong(h heads.Head, chains *folder.Chains) string {
	if g.key != nil {
		if err := h.Signed(g.key); err != nil {
			return err.Error()
		}
	}
	chain, there := chains.At[h.Serial]
	switch {
	case there && chain == h.Chain:
		return ""
	case there:
		return "an edit up to it was changed, taken away or brought in since"
	case h.Serial > chains.Ends:
		return fmt.Sprintf("the journals end at serial %d: the end was cut off", chains.Ends)
	case h.Serial > chains.Begins:
		return "there is no edit of that serial"
	}
	for _, known := range g.inside {
		if known.Serial == h.Serial && known.Chain == h.Chain {
			return ""
		}
	}
	return fmt.Sprintf("the journals begin behind serial %d, and no head of before says the same", chains.Begins)
}
