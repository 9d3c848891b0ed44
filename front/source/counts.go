package source

import (
	"net"
	"net/http"
	"sync"
	"time"

	"github.com/prometheus/client_golang/prometheus"
	"github.com/prometheus/client_golang/prometheus/promhttp"

	"review-front/source/differ"
	"review-front/source/form"
)

// Why something of a source wasn't taken.
const (
	unread    = "unread"    // it can't be read, or is wrong
	excessive = "excessive" // more than --at-most would be dropped or lost
	refused   = "refused"   // the front doesn't take it
)

// counts is what happened, for Prometheus.
type counts struct {
	registry *prometheus.Registry
	names    *prometheus.GaugeVec
	changes  *prometheus.CounterVec
	refusals *prometheus.CounterVec
	mutex    sync.Mutex
	taken    map[string]time.Time // when a source was last as the table is, or the start
}

func newCounts(sources []*form.Source) *counts {
	c := &counts{
		registry: prometheus.NewRegistry(), taken: map[string]time.Time{},
		names: prometheus.NewGaugeVec(prometheus.GaugeOpts{
			Name: "review_source_names", Help: "Names that a source has.",
		}, []string{"source", "list"}),
		changes: prometheus.NewCounterVec(prometheus.CounterOpts{
			Name: "review_source_changes_total", Help: "Names that were changed for a source.",
		}, []string{"source", "what"}),
		refusals: prometheus.NewCounterVec(prometheus.CounterOpts{
			Name: "review_source_refused_total", Help: "How often a source wasn't taken.",
		}, []string{"source", "why"}),
	}
	c.registry.MustRegister(c.names, c.changes, c.refusals)
	for _, s := range sources {
		name := s.Name
		c.taken[name] = time.Now()
		for _, why := range []string{unread, excessive, refused} {
			c.refusals.WithLabelValues(name, why)
		}
		for _, what := range []differ.What{differ.Added, differ.Set, differ.Left, differ.Dropped} {
			c.changes.WithLabelValues(name, string(what))
		}
		c.registry.MustRegister(prometheus.NewGaugeFunc(prometheus.GaugeOpts{
			Name: "review_source_age_seconds", ConstLabels: prometheus.Labels{"source": name},
			Help: "How long ago the table was last made as a source is, or the start.",
		}, func() float64 { return c.age(name).Seconds() }))
	}
	return c
}

// age is how long ago a source was taken.
func (c *counts) age(name string) time.Duration {
	c.mutex.Lock()
	defer c.mutex.Unlock()
	return time.Since(c.taken[name])
}

// refuse counts that a source wasn't taken.
func (c *counts) refuse(s *form.Source, why string) { c.refusals.WithLabelValues(s.Name, why).Inc() }

// done counts what a source changed.
func (c *counts) done(plan *differ.Plan) {
	name := plan.Given.Source.Name
	for list, entities := range plan.Given.Entities {
		c.names.WithLabelValues(name, list).Set(float64(len(entities)))
	}
	for _, what := range []differ.What{differ.Added, differ.Set, differ.Left, differ.Dropped} {
		c.changes.WithLabelValues(name, string(what)).Add(float64(plan.Count("", what)))
	}
	c.mutex.Lock()
	defer c.mutex.Unlock()
	c.taken[name] = time.Now()
}

// serve answers /metrics at an address, if there is one, until it is stopped.
func (c *counts) serve(address string) (stop func(), err error) {
	if address == "" {
		return func() {}, nil
	}
	listener, err := net.Listen("tcp", address)
	if err != nil {
		return nil, err
	}
	paths := http.NewServeMux()
	paths.Handle("/metrics", promhttp.HandlerFor(c.registry, promhttp.HandlerOpts{}))
	server := &http.Server{Handler: paths, ReadHeaderTimeout: 10 * time.Second, IdleTimeout: time.Minute}
	go func() { _ = server.Serve(listener) }()
	return func() { _ = server.Close() }, nil
}
