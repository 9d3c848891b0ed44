package main

import (
	"encoding/json"
	"net/http"
	"sort"
	"strings"
	"testing"
)

// samples has, of each path that is read, what is asked of the clinic, and how the answer begins.
var samples = map[string][2]string{
	"/":                                     {"/", `{"paths":`},
	"/openapi.json":                         {"/openapi.json", `{"components":`},
	"/table":                                {"/table", `{"table":[{"action":`},
	"/counts":                               {"/counts", `{"counts":{"Deny":37,`},
	"/cells/{person}/{action}/{resource}":   {"/cells/hana/write/record-moss", `{"cell":{"action":"write",`},
	"/can/{person}":                         {"/can/hana", `{"can":[{"action":`},
	"/who":                                  {"/who?action=write&resource=record-moss", `{"who":["ada","dina"]}`},
	"/by_rule":                              {"/by_rule?policy=records&rule=trainees-only-read", `{"by_rule":[{"action":`},
	"/whoami":                               {"/whoami", `{"commands":["action.add",`},
	"/desk/{file}":                          {"/desk/cell.js", "// A cell in full"},
	"/work":                                 {"/work", `{"evaluations":`},
	"/dump":                                 {"/dump?version=2", `{"dump":["{\"do\":\"format\",\"version\":2}"`},
	"/format":                               {"/format?version=2", `{"format":2}`},
	"/state":                                {"/state", `{"state":{`},
	"/limits":                               {"/limits", `{"limits":{"actions":{"most":32,"taken":`},
	"/names":                                {"/names?list=people&from=1&count=2", `{"names":["`},
	"/documents":                            {"/documents?id=records", `{"documents":[{`},
	"/attributes":                           {"/attributes?category=AccessSubject&entity=ada", `{"attributes":[{`},
	"/cells":                                {"/cells?person=hana&decisions=Deny&decisions=Permit", `{"cells":[{`},
	"/changes":                              {"/changes?since=69", `{"changes":[],"serial":69}`},
	"/edits":                                {"/edits?since=68", `{"edits":[{"by":"127.0.0.1","changed":[{"action":`},
	"/head":                                 {"/head", `{"kind":"head","format":1,"serial":69,"chain":"`},
	"/faults":                               {"/faults", `{"faults":[`},
	"/explain/{person}/{action}/{resource}": {"/explain/hana/write/record-moss", `{"explain":{"answer":{`},
	"/healthz":                              {"/healthz", `{"status":"ok"}`},
	"/readyz":                               {"/readyz", `{"status":"ready"}`},
	"/metrics":                              {"/metrics", `# HELP `},
	"/campaigns":                            {"/campaigns", `{"campaigns":[{"campaign":{"name":"q4",`},
	"/campaigns/{campaign}":                 {"/campaigns/q4", `{"campaign":{"name":"q4",`},
	"/campaigns/{campaign}/items":           {"/campaigns/q4/items?count=3", `{"campaign":"q4","groups":[{"person":`},
	"/campaigns/{campaign}/items/{item}":    {"/campaigns/q4/items/0", `{"campaign":"q4","explain":{"answer":{`},
	"/campaigns/{campaign}/tasks":           {"/campaigns/q4/tasks", `{"more":false,"serial":70,"tasks":[]}`},
	"/campaigns/{campaign}/evidence":        {"/campaigns/q4/evidence", `{"evidence":1,"campaign":"q4","serial":70,`},
}

// listening has the paths that are read and asked by tests of their own.
var listening = map[string]bool{
	"/notices": true, "/sessions/{session}/notices": true, "/campaigns/{campaign}/events": true,
}

// TestPaths asks each path that the front lists once, of the clinic.
func TestPaths(t *testing.T) {
	f := begin(t, t.TempDir())
	f.accept(clinic(t)...)
	var listed struct{ Paths []string }
	if err := json.Unmarshal([]byte(f.must("/")), &listed); err != nil {
		t.Fatal(err)
	}
	count := 0
	sort.SliceStable(listed.Paths, func(i, j int) bool { // those of a campaign last, which takes a serial
		return !strings.Contains(listed.Paths[i], "/campaigns") && strings.Contains(listed.Paths[j], "/campaigns")
	})
	for _, one := range listed.Paths {
		method, path, _ := strings.Cut(one, " ")
		if method != http.MethodGet || listening[path] {
			continue
		}
		if strings.Contains(path, "/campaigns") {
			f.post("/campaigns", opening("q4", "rita", ""))
		}
		sample, there := samples[path]
		if !there {
			t.Errorf("%s isn't asked", path)
			continue
		}
		count++
		if status, body := f.get(sample[0]); status != http.StatusOK || !strings.HasPrefix(body, sample[1]) {
			t.Errorf("%s is answered %d %.300s", sample[0], status, body)
		}
	}
	if count != len(samples) {
		t.Errorf("%d paths are asked, of %d", count, len(samples))
	}
}
