package web

import (
	"encoding/json"
	"net/http"
	"regexp"
	"strconv"
	"strings"
)

const jsonType = "application/json"

// deskTypes are those of the files of the desk.
var deskTypes = []string{"text/javascript", "text/css", "text/html", "image/svg+xml"}

// operation is what the OpenAPI document says of a path beside its method and keys.
type operation struct {
	does  string
	about string   // more of it, or nothing
	takes []string // the types of a body; none: there is none
	gives []string // the types of the answer where it is what was asked for; none: it is empty
	done  int      // the status then; 0: 200
	has   string   // a key that a JSON answer then has
	query []string // keys that the query may have, each with 1
	keys  []key    // others that it may have
}

// operations has what is said of each path that isn't a question of the program, by its method and path.
var operations = map[string]operation{
	"POST /authorize": {
		does:  "Answers a request of XACML, or several in one.",
		takes: []string{profileType, jsonType, xmlType}, gives: []string{profileType, xmlType}, has: "Response",
	},
	"GET /":             telling("Lists the paths; a browser gets the desk.", "paths"),
	"GET /openapi.json": telling("Describes the paths.", "openapi"),
	"GET /desk/{file}":  {does: "Gives a file of the desk, which a browser is answered at /.", gives: deskTypes},
	"GET /whoami":       telling("Tells who asks, and which commands he has.", "commands"),
	"GET /called": {
		does: "Tells what people are called.", gives: []string{jsonType}, has: "called", keys: calledKeys,
	},
	"POST /lines": {
		does: "Answers commands, one in each line. With dry it tells what they change, with whole it makes all or none. " +
			"With strict the status says whether each was accepted, with count a last line and the field Review-Count behind " +
			"it how many were, and with words a refusal says why.",
		takes: []string{linesType}, gives: []string{linesType},
		query: []string{"dry", "whole", "strict", "count", "words"},
	},
	"POST /commands/{command}": taking("Sends one command.", ""),
	"POST /documents/check":    taking("Tells what is wrong with the text of a policy, each fault at its line.", "faults"),
	"POST " + kubernetesPath:   taking("Answers a SubjectAccessReview of Kubernetes.", "status"),
	"GET /edits": {
		does:  "Tells edits: who made each, when, its line, and what it changed.",
		gives: []string{jsonType}, has: "edits", keys: editsKeys,
	},
	"GET /campaigns":  telling("Tells of all campaigns.", "campaigns"),
	"POST /campaigns": taking("Opens a campaign over the cells of a scope, as they are at its place.", "campaign"),
	"GET /campaigns/{campaign}": telling("Tells how far a campaign is, what is open by reviewer, and what fell.",
		"campaign"),
	"GET /campaigns/{campaign}/items": {
		does:  "Tells items by groups: those of one person that the same rules give, with the digest of their answers.",
		gives: []string{jsonType}, has: "groups", keys: itemsKeys,
	},
	"GET /campaigns/{campaign}/items/{item}": telling("Tells one item, and what its answer rests on.", "explain"),
	"GET /campaigns/{campaign}/tasks": {
		does:  "Tells what is to be revoked and is still there, with what each answer rests on.",
		gives: []string{jsonType}, has: "tasks", keys: tasksKeys,
	},
	"GET /campaigns/{campaign}/events": {
		does: "Tells what happens to a campaign, as it happens.", gives: []string{"text/event-stream"},
	},
	"GET /campaigns/{campaign}/evidence": {
		does:  "Gives items, acts and falls, with the records of the journal by which they can be checked.",
		gives: []string{linesType, csvType}, keys: evidenceKeys,
	},
	"POST /campaigns/{campaign}/keep":   taking("Signs that items may stay, whose answers were seen.", "serial"),
	"POST /campaigns/{campaign}/revoke": taking("Signs that items are to go, and why.", "serial"),
	"POST /campaigns/{campaign}/pass":   taking("Says whose the items are.", "serial"),
	"POST /campaigns/{campaign}/undo":   taking("Takes back what one signed oneself.", "serial"),
	"POST /campaigns/{campaign}/close":  taking("Ends a campaign.", "serial"),
	"GET /head":                         telling("Gives the head of the journal's chain behind the last edit.", "chain"),
	"GET /notices": {does: "Tells what edits change, as it happens.",
		gives: []string{"text/event-stream"}},
	"POST /sessions": {
		does: "Opens a session.", gives: []string{jsonType}, done: http.StatusCreated, has: "session",
	},
	"DELETE /sessions/{session}": {does: "Ends a session.", done: http.StatusNoContent},
	"POST /sessions/{session}/lines": {
		does: "Answers commands within a session, as /lines does.", takes: []string{linesType}, gives: []string{linesType},
		query: []string{"dry", "whole", "strict", "count", "words"},
	},
	"POST /sessions/{session}/mark":   telling("Marks the table for a session.", "mark"),
	"GET /sessions/{session}/notices": telling("Tells what changed since a session's mark.", "notices"),
	"GET /healthz":                    telling("Says that the front runs.", "status"),
	"GET /readyz":                     telling("Says that lines are answered.", "status"),
	"GET /snapshot":                   {does: "Gives the file of the newest snapshot.", gives: []string{snapshotType}},
	"GET /snapshot/keys": {
		does: "Gives what is remembered of bodies with keys.", gives: []string{snapshotType},
	},
	"GET /snapshot/campaigns": {
		does: "Gives what is known of campaigns.", gives: []string{snapshotType},
	},
	"GET /check": {
		does: "Says a proxy whether a request is to be passed on, which the fields that a file names describe.",
		done: http.StatusNoContent,
	},
	"GET /metrics":                           {does: "Tells counts for Prometheus.", gives: []string{"text/plain"}},
	"POST /access/v1/evaluation":             taking("Answers an evaluation of AuthZEN.", "decision"),
	"POST /access/v1/evaluations":            taking("Answers several evaluations of AuthZEN, or one.", ""),
	"POST /access/v1/search/subject":         taking("Finds the subjects that may do an action to a resource.", "results"),
	"POST /access/v1/search/action":          taking("Finds the actions that a subject may do to a resource.", "results"),
	"POST /access/v1/search/resource":        taking("Finds the resources to which a subject may do an action.", "results"),
	"GET /.well-known/authzen-configuration": telling("Tells where AuthZEN's paths are.", "policy_decision_point"),
}

// telling is an operation that takes no body and gives JSON with a key.
func telling(does, has string) operation {
	return operation{does: does, gives: []string{jsonType}, has: has}
}

// taking is an operation that takes JSON and gives JSON with a key.
func taking(does, has string) operation {
	return operation{does: does, takes: []string{jsonType}, gives: []string{jsonType}, has: has}
}

// inWholeSeconds is told of AuthZEN's requests.
const inWholeSeconds = "Properties of the types dateTime and time are taken in whole seconds: a fraction of a second " +
	"is cut, and absent seconds are 00. X-Request-ID comes back, and what goes wrong is told as one text."

// object is one of the document.
type object = map[string]any

// openapi describes the paths.
func (s *Server) openapi(w *answered, _ *http.Request, _ map[string]string) {
	written, err := json.Marshal(object{
		"openapi": "3.0.3",
		"info": object{
			"title": "Entitlement review", "version": s.Keeper.Version(),
			"description": "What an answer means stands in the pages of the project. What goes wrong is told as a problem, " +
				"but by AuthZEN's paths as a text.",
		},
		"paths": s.described(),
		"components": object{"schemas": object{"Problem": object{
			"type": "object", "required": []string{"title", "status"},
			"properties": object{
				"title": object{"type": "string"}, "status": object{"type": "integer"},
				"detail": object{"type": "string"}, "refused": object{"type": "integer"},
				"sub": object{"type": "integer"}, "place": object{"type": "string"},
			},
		}}},
	})
	if err != nil {
		problemFor(err).send(w)
		return
	}
	sendJSON(w, written)
}

// described has what is said of each path, as they stand in the table of paths.
func (s *Server) described() map[string]object {
	paths := map[string]object{}
	add := func(method, path string, keys []key, told operation) {
		if paths[path] == nil {
			paths[path] = object{}
		}
		paths[path][strings.ToLower(method)] = told.written(path, keys)
	}
	asked := map[string]question{}
	for _, q := range questions {
		asked[q.path] = q
	}
	add(http.MethodPost, "/authorize", nil, operations["POST /authorize"])
	for _, route := range s.known {
		q, isQuestion := asked[route.path]
		told, known := operations[route.method+" "+route.path]
		if !known {
			told = scimOperations[route.method+" "+route.path]
		}
		if isQuestion && route.method == http.MethodGet {
			told = telling("Gives the reply to the command "+q.do+".", q.has())
			told.keys = []key{{atKey, textOrNot}}
			if q.do == "changes" {
				told.keys = moreChanges
			}
		}
		add(route.method, route.path, append(append([]key(nil), q.keys...), told.keys...), told)
	}
	return paths
}

// has is the key that the reply to a question has.
func (q question) has() string {
	if q.do == "work" {
		return "evaluations"
	}
	return q.do
}

// inPath finds the keys of a path.
var inPath = regexp.MustCompile(`\{(\w+)\}`)

// written is the operation of a path with its keys.
func (o operation) written(path string, keys []key) object {
	var parameters []object
	there := map[string]bool{}
	for _, found := range inPath.FindAllStringSubmatch(path, -1) {
		there[found[1]] = true
		parameters = append(parameters, object{
			"name": found[1], "in": "path", "required": true, "schema": object{"type": "string"},
		})
	}
	for _, key := range keys {
		if !there[key.name] {
			parameters = append(parameters, key.parameter())
		}
	}
	for _, name := range o.query {
		parameters = append(parameters, object{
			"name": name, "in": "query", "required": false, "schema": object{"type": "string", "enum": []string{"1"}},
		})
	}
	success := object{"description": o.does}
	if len(o.gives) > 0 {
		success["content"] = contents(o.gives, o.has)
	}
	status := o.done
	if status == 0 {
		status = http.StatusOK
	}
	wrong := object{problemType: object{"schema": object{"$ref": "#/components/schemas/Problem"}}}
	if strings.HasPrefix(path, scimPrefix) {
		wrong = object{scimType: object{"schema": object{"type": "object", "required": []string{"status"}}}}
	}
	if strings.HasPrefix(path, authzenPrefix) {
		parameters = append(parameters, object{
			"name": requestID, "in": "header", "required": false, "schema": object{"type": "string"},
		})
		wrong = object{jsonType: object{"schema": object{"type": "string"}}}
	}
	told := object{
		"summary": o.does,
		"responses": object{
			strconv.Itoa(status): success, "default": object{"description": "It can't be answered.", "content": wrong},
		},
	}
	if strings.HasPrefix(path, authzenPrefix) {
		told["description"] = inWholeSeconds
	}
	if len(parameters) > 0 {
		told["parameters"] = parameters
	}
	if len(o.takes) > 0 {
		told["requestBody"] = object{"content": contents(o.takes, "")}
	}
	return told
}

// parameter is a key of a question in its query.
func (k key) parameter() object {
	schema := object{"type": "string"}
	switch k.kind {
	case aWhole, wholeOrNo:
		schema = object{"type": "integer"}
	case textList:
		schema = object{"type": "array", "items": schema}
	case flagOrNo:
		schema = object{"type": "boolean"}
	}
	return object{"name": k.name, "in": "query", "required": k.kind == aText || k.kind == aWhole, "schema": schema}
}

// contents has what bodies of some types hold: of JSON an object, with a key if one is told.
func contents(types []string, has string) object {
	all := object{}
	for _, one := range types {
		schema := object{"type": "string"}
		if strings.HasSuffix(one, "json") && one != linesType {
			schema = object{"type": "object"}
			if has != "" {
				schema["required"] = []string{has}
			}
		}
		all[one] = object{"schema": schema}
	}
	return all
}
