package measure

import "github.com/prometheus/client_golang/prometheus"

// State is what the program says of itself.
type State struct {
	Evaluations float64
	Cells       map[string]float64 // by decision
}

// stateOf asks the program when somebody asks for the counts.
type stateOf struct {
	ask         func() (State, bool)
	evaluations *prometheus.Desc
	cells       *prometheus.Desc
}

// Ask adds what the program says of itself, which is asked each time. It is left out where there is no answer.
func (m *Meter) Ask(ask func() (State, bool)) {
	m.registry.MustRegister(&stateOf{
		ask:         ask,
		evaluations: prometheus.NewDesc(space+"_evaluations", "Evaluations that the program has made.", nil, nil),
		cells:       prometheus.NewDesc(space+"_cells", "Cells of the table by decision.", []string{"decision"}, nil),
	})
}

// Describe tells what is collected.
func (s *stateOf) Describe(to chan<- *prometheus.Desc) {
	to <- s.evaluations
	to <- s.cells
}

// Collect asks the program.
func (s *stateOf) Collect(to chan<- prometheus.Metric) {
	state, ok := s.ask()
	if !ok {
		return
	}
	to <- prometheus.MustNewConstMetric(s.evaluations, prometheus.GaugeValue, state.Evaluations)
	for decision, count := range state.Cells {
		to <- prometheus.MustNewConstMetric(s.cells, prometheus.GaugeValue, count, decision)
	}
}
