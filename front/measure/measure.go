// Package measure counts what happens, for Prometheus.
package measure

import (
	"net/http"
	"strconv"
	"sync"
	"time"

	"github.com/prometheus/client_golang/prometheus"
	"github.com/prometheus/client_golang/prometheus/collectors"
	"github.com/prometheus/client_golang/prometheus/promhttp"
)

const space = "review_front"

// Meter is the counts of one front.
type Meter struct {
	registry *prometheus.Registry

	requests  *prometheus.CounterVec
	seconds   *prometheus.HistogramVec
	mutex     sync.RWMutex
	known     map[kind]counted // what was counted before: finding it by its labels takes longer than counting
	decisions map[string]prometheus.Counter
	lines     prometheus.Counter

	edits    prometheus.Counter
	syncs    prometheus.Counter
	syncTime prometheus.Histogram
	failures prometheus.Counter

	restarts  *prometheus.CounterVec
	replayed  prometheus.Gauge
	replaying prometheus.Gauge
	snapshots *prometheus.CounterVec
	snapshot  prometheus.Gauge
}

// kind is a path and a status of requests.
type kind struct {
	path   string
	status int
}

// counted is where requests of a kind are counted.
type counted struct {
	number  prometheus.Counter
	seconds prometheus.Observer
}

// Decisions are what answers may be, and what is said of one that can't be read.
var Decisions = []string{"Permit", "Deny", "NotApplicable", "Indeterminate", Unknown}

// Unknown is said of an answer whose decision can't be read.
const Unknown = "unknown"

var (
	requestTimes = prometheus.ExponentialBuckets(0.0001, 2.5, 14)
	syncTimes    = prometheus.ExponentialBuckets(0.0001, 2.5, 12)
)

// New is a meter that has counted nothing.
func New() *Meter {
	m := &Meter{registry: prometheus.NewRegistry(), known: map[kind]counted{}, decisions: map[string]prometheus.Counter{}}
	m.requests = m.counters("requests_total", "Requests by path and status.", "path", "status")
	m.seconds = prometheus.NewHistogramVec(prometheus.HistogramOpts{
		Namespace: space, Name: "request_seconds", Help: "Time of requests by path.", Buckets: requestTimes,
	}, []string{"path"})
	decisions := m.counters("decisions_total", "Answers to requests of /authorize by decision.", "decision")
	for _, decision := range Decisions {
		m.decisions[decision] = decisions.WithLabelValues(decision)
	}
	m.lines = m.counter("lines_total", "Lines of clients.")
	m.edits = m.counter("edits_total", "Edits that were accepted and are on disk.")
	m.syncs = m.counter("journal_syncs_total", "How often edits were brought to the disk.")
	m.syncTime = prometheus.NewHistogram(prometheus.HistogramOpts{
		Namespace: space, Name: "journal_sync_seconds", Help: "Time until edits are on disk.", Buckets: syncTimes,
	})
	m.failures = m.counter("journal_failures_total", "How often the journal couldn't be written.")
	m.restarts = m.counters("restarts_total", "New programs in the place of others, by cause.", "why")
	m.replayed = m.gauge("replayed_edits", "Edits of the journal behind the snapshot when a program was last started.")
	m.replaying = m.gauge("replay_seconds", "How long the last program took to have its state.")
	m.snapshots = m.counters("snapshots_total", "Snapshots by whether a second program came to the same.", "outcome")
	m.snapshot = m.gauge("snapshot_seconds", "How long the last snapshot took.")
	m.registry.MustRegister(m.seconds, m.syncTime, collectors.NewGoCollector(),
		collectors.NewProcessCollector(collectors.ProcessCollectorOpts{}))
	return m
}

func (m *Meter) counter(name, help string) prometheus.Counter {
	c := prometheus.NewCounter(prometheus.CounterOpts{Namespace: space, Name: name, Help: help})
	m.registry.MustRegister(c)
	return c
}

func (m *Meter) counters(name, help string, labels ...string) *prometheus.CounterVec {
	c := prometheus.NewCounterVec(prometheus.CounterOpts{Namespace: space, Name: name, Help: help}, labels)
	m.registry.MustRegister(c)
	return c
}

func (m *Meter) gauge(name, help string) prometheus.Gauge {
	g := prometheus.NewGauge(prometheus.GaugeOpts{Namespace: space, Name: name, Help: help})
	m.registry.MustRegister(g)
	return g
}

// Watch adds a number that is looked up when somebody asks.
func (m *Meter) Watch(name, help string, now func() float64) {
	m.registry.MustRegister(prometheus.NewGaugeFunc(prometheus.GaugeOpts{Namespace: space, Name: name, Help: help}, now))
}

// Request counts a request that was answered.
func (m *Meter) Request(path string, status int, took time.Duration) {
	of := kind{path: path, status: status}
	m.mutex.RLock()
	where, ok := m.known[of]
	m.mutex.RUnlock()
	if !ok {
		where = counted{
			number: m.requests.WithLabelValues(path, strconv.Itoa(status)), seconds: m.seconds.WithLabelValues(path),
		}
		m.mutex.Lock()
		m.known[of] = where
		m.mutex.Unlock()
	}
	where.number.Inc()
	where.seconds.Observe(took.Seconds())
}

// Decision counts a decision, which is one of Decisions.
func (m *Meter) Decision(decision string) { m.decisions[decision].Inc() }

// Line counts a line of a client.
func (m *Meter) Line() { m.lines.Inc() }

// Committed counts edits that came to the disk together.
func (m *Meter) Committed(edits int, took time.Duration) {
	m.edits.Add(float64(edits))
	m.syncs.Inc()
	m.syncTime.Observe(took.Seconds())
}

// JournalFailed counts that edits couldn't be written.
func (m *Meter) JournalFailed() { m.failures.Inc() }

// Restarted counts a program that was put in the place of another.
func (m *Meter) Restarted(why string) { m.restarts.WithLabelValues(why).Inc() }

// Built says how long a new program took to have its state.
func (m *Meter) Built(edits uint64, took time.Duration) {
	m.replayed.Set(float64(edits))
	m.replaying.Set(took.Seconds())
}

// Snapshot counts a snapshot that was made, or was not.
func (m *Meter) Snapshot(kept bool, took time.Duration) {
	outcome := "refused"
	if kept {
		outcome = "kept"
	}
	m.snapshots.WithLabelValues(outcome).Inc()
	m.snapshot.Set(took.Seconds())
}

// Handler answers who asks for the counts.
func (m *Meter) Handler() http.Handler {
	return promhttp.HandlerFor(m.registry, promhttp.HandlerOpts{})
}
