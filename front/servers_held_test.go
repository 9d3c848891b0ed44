//go:build nats

package main

import (
	"os"
	"path/filepath"
	"testing"
	"time"

	"github.com/nats-io/nats.go"
)

// heldMessage is a message as a server holds it.
type heldMessage struct{ id, line string }

// connected is a connection to servers, until the test ends.
func connected(t testing.TB, servers []*natsServer) (*nats.Conn, nats.JetStreamContext) {
	t.Helper()
	connection, err := nats.Connect(logOf(servers), nats.MaxReconnects(-1), nats.RetryOnFailedConnect(true),
		nats.PingInterval(time.Second)) // one that is halted is left
	if err != nil {
		t.Fatal(err)
	}
	t.Cleanup(connection.Close)
	jet, err := connection.JetStream(nats.MaxWait(time.Second))
	if err != nil {
		t.Fatal(err)
	}
	return connection, jet
}

// inServers is what each server has of the stream, by its name and by sequences. Consumers are made until there was one
// at each: where it stands is chance, and it is brought what that server holds.
func inServers(t testing.TB, servers []*natsServer) map[string]map[uint64]heldMessage {
	t.Helper()
	connection, jet := connected(t, servers)
	var last uint64
	eventually(t, "the stream can be had", func() bool {
		info, err := jet.StreamInfo("edits")
		if err != nil {
			return false
		}
		last = info.State.LastSeq
		return true
	})
	all := map[string]map[uint64]heldMessage{}
	eventually(t, "there was a consumer at each server", func() bool {
		inbox := nats.NewInbox()
		from, err := connection.SubscribeSync(inbox)
		if err != nil {
			t.Fatal(err)
		}
		defer func() { _ = from.Unsubscribe() }()
		info, err := jet.AddConsumer("edits", &nats.ConsumerConfig{
			DeliverSubject: inbox, AckPolicy: nats.AckNonePolicy, Replicas: 1, MemoryStorage: true,
		})
		if err != nil || info.Cluster == nil {
			return false
		}
		defer func() { _ = jet.DeleteConsumer("edits", info.Name) }()
		if all[info.Cluster.Leader] != nil {
			return false
		}
		all[info.Cluster.Leader] = brought(t, from, last)
		return len(all) == len(servers)
	})
	return all
}

// brought is what a consumer brings up to a sequence, or until it brings nothing more.
func brought(t testing.TB, from *nats.Subscription, last uint64) map[uint64]heldMessage {
	t.Helper()
	messages := map[uint64]heldMessage{}
	for {
		message, err := from.NextMsg(2 * time.Second)
		if err != nil {
			return messages
		}
		about, err := message.Metadata()
		if err != nil {
			t.Fatal(err)
		}
		messages[about.Sequence.Stream] = heldMessage{message.Header.Get(nats.MsgIdHdr), string(message.Data)}
		if about.Sequence.Stream >= last {
			return messages
		}
	}
}

// leads is the server that leads the stream, and is false where none does.
func leads(jet nats.JetStreamContext, servers []*natsServer) (*natsServer, bool) {
	info, err := jet.StreamInfo("edits")
	if err != nil || info.Cluster == nil {
		return nil, false
	}
	for _, s := range servers {
		if s.name == info.Cluster.Leader {
			return s, true
		}
	}
	return nil, false
}

// empty ends a server, and starts it again with nothing.
func (s *natsServer) empty() {
	s.t.Helper()
	s.stop()
	if err := os.RemoveAll(filepath.Join(filepath.Dir(s.config), "disk", "jetstream")); err != nil {
		s.t.Fatal(err)
	}
	s.start()
}

// differing are the sequences at which servers don't hold the same message.
func differing(t testing.TB, servers []*natsServer) map[uint64]bool {
	t.Helper()
	found := map[uint64]bool{}
	all := inServers(t, servers)
	for _, one := range all {
		for _, other := range all {
			for sequence, message := range one {
				if other[sequence] != message {
					found[sequence] = true
				}
			}
		}
	}
	return found
}
