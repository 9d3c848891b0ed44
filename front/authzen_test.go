package main

import (
	"bytes"
	"encoding/json"
	"fmt"
	"math/rand"
	"net/http"
	"os"
	"path/filepath"
	"sort"
	"strings"
	"sync"
	"testing"
)

var todoFolder = filepath.Join("..", "examples", "todo")

// todo starts a front over the to-do list.
func todo(t testing.TB, more ...string) *front {
	t.Helper()
	f := begin(t, t.TempDir(), append([]string{"--authzen", filepath.Join(todoFolder, "authzen.json")}, more...)...)
	content, err := os.ReadFile(filepath.Join(todoFolder, "todo.jsonl"))
	if err != nil {
		t.Fatal(err)
	}
	f.accept(strings.Split(strings.TrimSpace(string(content)), "\n")...)
	return f
}

// evaluated asks an evaluation, and gives whether it is allowed.
func (f *front) evaluated(question string) bool {
	f.t.Helper()
	status, body := f.post("/access/v1/evaluation", question)
	var read struct{ Decision *bool }
	if err := json.Unmarshal([]byte(body), &read); err != nil || status != http.StatusOK || read.Decision == nil {
		f.t.Fatalf("%s is answered %d %s", question, status, body)
	}
	return *read.Decision
}

// results asks a search, all its pages, and gives the ids or names that are found.
func (f *front) results(path, question string, limit int) []string {
	f.t.Helper()
	found := []string{}
	for token := ""; ; {
		asked := question
		if limit > 0 {
			asked = fmt.Sprintf(`%s,"page":{"limit":%d,"token":%q}}`, strings.TrimSuffix(question, "}"), limit, token)
		}
		status, body := f.post("/access/v1/search/"+path, asked)
		var read struct {
			Results []struct{ ID, Name string }
			Page    struct {
				Next  string `json:"next_token"`
				Total int
			}
		}
		if err := json.Unmarshal([]byte(body), &read); err != nil || status != http.StatusOK {
			f.t.Fatalf("%s is answered %d %s", asked, status, body)
		}
		for _, one := range read.Results {
			found = append(found, one.ID+one.Name)
		}
		if token = read.Page.Next; token == "" {
			if read.Page.Total != len(found) {
				f.t.Fatalf("%s has %d results, and says %d", question, len(found), read.Page.Total)
			}
			return found
		}
	}
}

// cell is a cell of the table, with the resource as AuthZEN has it.
type cell struct{ Person, Action, Resource, Decision string }

// table reads the table.
func (f *front) table() []cell {
	f.t.Helper()
	var read struct{ Table []cell }
	if err := json.Unmarshal([]byte(f.must("/table")), &read); err != nil {
		f.t.Fatal(err)
	}
	return read.Table
}

// partsOf are the three parts of a question for a cell.
func (c cell) parts() (subject, action, resource string) {
	kind, id, _ := strings.Cut(c.Resource, ":")
	return `"subject":{"type":"user","id":"` + c.Person + `"}`, `"action":{"name":"` + c.Action + `"}`,
		`"resource":{"type":"` + kind + `","id":"` + id + `"}`
}

// question is the evaluation of a cell.
func (c cell) question() string {
	subject, action, resource := c.parts()
	return "{" + subject + "," + action + "," + resource + "}"
}

// TestTodo asks who may do what with the to-do list, as its policies say in words.
func TestTodo(t *testing.T) {
	f := todo(t)
	owners := map[string]string{"todo:milk": "ben", "todo:roof": "chen", "todo:tax": "ada"}
	for _, one := range f.table() {
		isEditor := one.Person == "ben" || one.Person == "chen"
		isOwn := owners[one.Resource] == one.Person
		want := map[string]bool{
			"can_read_user": true, "can_read_todos": true, "can_create_todo": one.Person == "ada" || isEditor,
			"can_update_todo": one.Person == "ada" || isEditor && isOwn,
			"can_delete_todo": one.Person == "ada" || isEditor && isOwn,
		}[one.Action]
		if got := f.evaluated(one.question()); got != want || (one.Decision == "Permit") != want {
			t.Errorf("%v is answered %v", one, got)
		}
	}
	if !f.evaluated(`{"subject":{"type":"user","id":"ben"},"action":{"name":"can_update_todo"},` +
		`"resource":{"type":"todo","id":"new","properties":{"ownerID":"ben"}}}`) {
		t.Error("an owner doesn't change his new item")
	}
}

// decided is how many decisions a body has.
func decided(body string) int {
	return strings.Count(body, `"decision":true`) + strings.Count(body, `"decision":false`)
}

// TestAuthzenShapes asks AuthZEN's paths in each shape that they take, and such as they refuse.
func TestAuthzenShapes(t *testing.T) {
	f := todo(t)
	ben := `"subject":{"type":"user","id":"ben","properties":{"mood":"fine"}}`
	update, milk := `"action":{"name":"can_update_todo"}`, `"resource":{"type":"todo","id":"milk"}`
	several := func(semantics string) string {
		return "{" + ben + "," + update + `,"evaluations":[{` + milk + `},{"resource":{"type":"todo","id":"roof"}},{"resource":{"type":"x","id":"y"}},` +
			`{` + milk + `,"action":{"name":"can_read_todos"}},7],"options":{"evaluations_semantic":"` + semantics + `"}}`
	}
	yes, no := `{"decision":true,"context":{"decision":"Permit"`, `{"decision":false,"context":{"decision":"Deny"`
	for _, one := range []struct {
		path, body string
		status     int
		want       string
		count      int // of decisions
	}{
		{"evaluation", "{" + ben + "," + update + "," + milk + `,"context":{"time":"2026-03-01T11:00:00+01:00","x":1},"more":1}`, 200, yes, 1},
		{"evaluation", "{" + ben + "," + update + `,"resource":{"type":"todo","id":"roof"}}`, 200, no, 1},
		{"evaluations", "{" + ben + "," + update + "," + milk + "}", 200, yes, 1},
		{"evaluations", "{" + ben + "," + update + "," + milk + `,"evaluations":[]}`, 200, yes, 1},
		{"evaluations", several("execute_all"), 200, `"error":{"status":400,"message":"/evaluations/2/resource/type: the type`, 5},
		{"evaluations", several("deny_on_first_deny"), 200, `{"evaluations":[` + yes, 2},
		{"evaluations", several("permit_on_first_permit"), 200, `{"evaluations":[` + yes, 1},
		{"evaluations", several("any"), 400, `/options/evaluations_semantic: `, 0},
		{"evaluations", "{" + ben + `,"evaluations":[` + strings.Repeat("{},", 1000) + "{}]}", 422, "more than 1000", 0},
		{"evaluation", "{" + ben + "," + update + "}", 400, `"resource is missing"`, 0},
		{"evaluation", "{" + ben + "," + update + `,"resource":{"type":"todo"}}`, 400, `/resource: id is missing`, 0},
		{"evaluation", "{" + ben + `,"action":{},` + milk + "}", 400, `/action: name is missing`, 0},
		{"evaluation", "{" + ben + "," + update + `,"resource":{"type":"todo","id":"x","properties":{"due":1}}}`, 400, `/resource/properties/due: `, 0},
		{"evaluation", "{" + ben + "," + update + `,"resource":{"type":"todo","id":"x","properties":{"ownerID":["a",1]}}}`, 400,
			`/resource/properties/ownerID/1: a number is of type integer`, 0},
		{"evaluation", "{" + ben + "," + update + "," + milk + `,"context":{"time":"now"}}`, 400, `/context/time: it is no dateTime`, 0},
		{"evaluation", "[]", 400, `"the body isn't an object"`, 0},
		{"evaluation", "{", 400, `"it isn't JSON"`, 0},
		{"evaluation", "{} {}", 400, `"something follows the JSON"`, 0},
		{"search/subject", `{"subject":{"type":"user"},` + update + "," + milk + "}", 200, `"results":[{"id":"ada","type":"user"},{"id":"ben","type":"user"}]`, 0},
		{"search/subject", `{"subject":{"type":"group"},` + update + "," + milk + "}", 400, `/subject/type: `, 0},
		{"search/subject", `{"subject":{"type":"user"},` + update + `,"resource":{"type":"todo","id":"new"}}`, 200, `"results":[{"id":"ada","type":"user"}]`, 0},
		{"search/subject", `{"subject":{"type":"user"},` + update + `,"resource":{"type":"todo","id":"roof","properties":{"ownerID":"ben"}}}`, 200,
			`"results":[{"id":"ada","type":"user"},{"id":"ben","type":"user"}]`, 0},
		{"search/action", "{" + ben + `,"resource":{"type":"todo","id":"roof"}}`, 200,
			`[{"name":"can_create_todo"},{"name":"can_read_todos"},{"name":"can_read_user"}]`, 0},
		{"search/resource", "{" + ben + "," + update + `,"resource":{"type":"todo"}}`, 200, `"results":[{"id":"milk","type":"todo"}]`, 0},
		{"search/resource", "{" + ben + "," + update + `,"resource":{"type":"todo"},"page":{"limit":0}}`, 400, `/page/limit: `, 0},
		{"search/resource", "{" + ben + "," + update + `,"resource":{"type":"todo"},"page":{"token":"AAAA"}}`, 400, `/page/token: `, 0},
	} {
		status, body := f.post("/access/v1/"+one.path, one.body)
		if status != one.status || !strings.Contains(body, one.want) || decided(body) != one.count {
			t.Errorf("%s of %s is answered %d %s, and not %s", one.path, one.body, status, body, one.want)
		}
	}
	f.head("{" + ben + "," + update + "," + milk + "}")
	f.otherToken("{" + ben + `,"action":{"name":"can_read_user"},"resource":{"type":"user"}`)
	unlisted := `{"subject":{"type":"user"},` + update + `,"resource":{"type":"todo","id":"new"}}`
	f.accept(`{"do":"person.add","name":"gil"}`,
		`{"do":"attr.set","category":"AccessSubject","entity":"gil","attribute":"role","type":"string","values":["evil_genius"]}`)
	if got := f.results("subject", unlisted, 0); strings.Join(got, " ") != "ada gil" {
		t.Errorf("one more who may is found as %v", got)
	}
	f.accept(`{"do":"person.drop","name":"ada"}`)
	if got := f.results("subject", unlisted, 1); strings.Join(got, " ") != "gil" {
		t.Errorf("one less who may is found as %v", got)
	}
	if told := f.must("/.well-known/authzen-configuration"); !strings.Contains(told, `"policy_decision_point":"`+f.url("")+`"`) {
		t.Errorf("the configuration is %s", told)
	}
}

// otherToken sees that the token of a search is none of another one.
func (f *front) otherToken(search string) {
	f.t.Helper()
	_, body := f.post("/access/v1/search/resource", search+`,"page":{"limit":1}}`)
	var read struct {
		Page struct {
			Next string `json:"next_token"`
		}
	}
	if err := json.Unmarshal([]byte(body), &read); err != nil || read.Page.Next == "" {
		f.t.Fatalf("%s, %v", body, err)
	}
	other := strings.Replace(search, `"ben"`, `"ada"`, 1) + `,"page":{"token":"` + read.Page.Next + `"}}`
	if status, body := f.post("/access/v1/search/resource", other); status != 400 || !strings.Contains(body, "of another search") {
		f.t.Errorf("the token of another search is answered %d %s", status, body)
	}
}

// head sees that an answer has the id of its request, and the serial of its state.
func (f *front) head(question string) {
	f.t.Helper()
	asked, err := http.NewRequest("POST", f.url("/access/v1/evaluation"), strings.NewReader(question))
	if err != nil {
		f.t.Fatal(err)
	}
	asked.Header.Set("X-Request-ID", "bfe9eb29")
	answer, err := http.DefaultClient.Do(asked)
	if err != nil {
		f.t.Fatal(err)
	}
	answer.Body.Close()
	if answer.Header.Get("X-Request-ID") != "bfe9eb29" || answer.Header.Get("Review-Serial") != "28" {
		f.t.Errorf("the head is %v", answer.Header)
	}
}

// TestAuthzenMatchesTable asks evaluations and searches at random, with edits between, and sees that they say what the
// table does.
func TestAuthzenMatchesTable(t *testing.T) {
	f := todo(t)
	random := rand.New(rand.NewSource(80))
	cells := f.table()
	for i := 0; i < number("FRONT_QUESTIONS", 300); i++ {
		if i%100 == 50 {
			owner := []string{"ada", "ben", "chen", "dina"}[random.Intn(4)]
			f.accept(`{"do":"attr.set","category":"Resource","entity":"todo:roof","attribute":"owner","type":"string","values":["` + owner + `"]}`)
			cells = f.table()
		}
		one := cells[random.Intn(len(cells))]
		subject, action, resource := one.parts()
		found := map[string][]string{}
		for _, other := range cells {
			if other.Decision != "Permit" {
				continue
			}
			kind, id, _ := strings.Cut(other.Resource, ":")
			isKind := strings.HasPrefix(one.Resource, kind)
			if other.Action == one.Action && other.Resource == one.Resource {
				found["subject"] = append(found["subject"], other.Person)
			}
			if other.Person == one.Person && other.Resource == one.Resource {
				found["action"] = append(found["action"], other.Action)
			}
			if other.Person == one.Person && other.Action == one.Action && isKind {
				found["resource"] = append(found["resource"], id)
			}
		}
		kind, _, _ := strings.Cut(one.Resource, ":")
		limit := random.Intn(4)
		// With a moment that no policy asks for, the question isn't one of the table: each candidate is asked.
		around := []string{"", `,"context":{"time":"2026-03-01T11:00:00Z"}`}[random.Intn(2)]
		path, question := "", ""
		switch random.Intn(4) {
		case 0:
			path, question = "subject", `{"subject":{"type":"user"},`+action+","+resource+around+"}"
		case 1:
			path, question = "action", "{"+subject+","+resource+around+"}"
		case 2:
			path, question = "resource", "{"+subject+","+action+`,"resource":{"type":"`+kind+`"}`+around+"}"
		default:
			if f.evaluated(one.question()) != (one.Decision == "Permit") {
				t.Fatalf("%s isn't answered as %v", one.question(), one)
			}
			continue
		}
		want := found[path]
		sort.Strings(want)
		if got := f.results(path, question, limit); strings.Join(got, " ") != strings.Join(want, " ") {
			t.Fatalf("%s of %s finds %v, and the table has %v", path, question, got, want)
		}
	}
}

// TestOneState edits while evaluations, several requests in one, and searches are asked: each answer is of one state.
func TestOneState(t *testing.T) {
	for _, askers := range []string{"0", "2"} {
		t.Run(askers, func(t *testing.T) { oneState(t, todo(t, "--askers", askers)) })
	}
}

// oneState edits policies and names while all that holds several questions is asked.
func oneState(t *testing.T, f *front) {
	toggle := func(permit bool) string {
		condition := isGiven(actionCategory, "urn:oasis:names:tc:xacml:1.0:action:action-id", "string", map[bool]string{true: `"go"`, false: `"stop"`}[permit])
		return `{"do":"policy.replace","document":` + strings.TrimSuffix(strings.TrimPrefix(oneRule(condition)[0], `{"do":"policy.add","document":`), "}") + `}`
	}
	f.accept(oneRule(isGiven(actionCategory, "urn:oasis:names:tc:xacml:1.0:action:action-id", "string", `"go"`))...)
	var batch bytes.Buffer
	batch.WriteString(`{"action":{"name":"go"},"resource":{"type":"todo","id":"x"},"evaluations":[`)
	for i := 0; i < 50; i++ {
		fmt.Fprintf(&batch, `{"subject":{"type":"user","id":"s%d"}},`, i)
	}
	batch.Truncate(batch.Len() - 1)
	batch.WriteString("]}")
	var both sync.WaitGroup
	both.Add(1)
	over := make(chan struct{})
	go func() {
		defer both.Done()
		for i := 0; ; i++ {
			select {
			case <-over:
				return
			default:
			}
			f.accept(toggle(i%2 == 0))
			if i%16 == 5 {
				f.accept(`{"do":"person.add","name":"finn"}`, `{"do":"person.drop","name":"finn"}`)
			}
		}
	}()
	seen, searched := map[int]int{}, map[int]int{}
	for i := 0; i < number("FRONT_ROUNDS", 15); i++ {
		status, body := f.post("/access/v1/evaluations", batch.String())
		allowed := strings.Count(body, `"decision":true`)
		if seen[allowed]++; status != http.StatusOK || allowed != 0 && allowed != 50 {
			t.Errorf("%d of 50 evaluations are true: %d %s", allowed, status, body)
		}
		status, body = f.post("/access/v1/search/subject",
			`{"subject":{"type":"user"},"action":{"name":"go"},"resource":{"type":"todo","id":"x"}}`)
		if found := strings.Count(body, `"type":"user"`) - strings.Count(body, "finn"); status == http.StatusOK && found != 0 && found != 5 ||
			status != http.StatusOK && status != http.StatusServiceUnavailable {
			t.Errorf("a search is answered %d %s", status, body)
		}
		searched[status]++
		status, body = f.post("/authorize", `{"Request":{"AccessSubject":[`+strings.Repeat("{},", 20)+`{}],"Action":{"Attribute":`+
			`{"AttributeId":"urn:oasis:names:tc:xacml:1.0:action:action-id","Value":"go"}}}}`)
		if permits := strings.Count(body, `"Permit"`); status != http.StatusOK || permits != 0 && permits != 21 {
			t.Errorf("%d of 21 requests in one are permitted: %d %s", permits, status, body)
		}
	}
	close(over)
	both.Wait()
	if seen[0] == 0 || seen[50] == 0 || searched[http.StatusOK] == 0 {
		t.Errorf("there was one state alone, or no search was answered: %v, %v", seen, searched)
	}
	t.Logf("evaluations by how many are true: %v; searches by status: %v", seen, searched)
}

// TestAuthzenFile sees that a file that says nothing of use ends the front, with the place.
func TestAuthzenFile(t *testing.T) {
	for content, want := range map[string]string{
		`{`:                       "it isn't JSON",
		`{"subject":{}}`:          "/subject: it isn't an object that names a type",
		`{"subject":{"user":{}}}`: "resource is missing",
		`{"subject":{"user":{}},"resource":{"a":{},"b":{}}}`:                                              "have the same prefix",
		`{"subject":{"user":{"properties":{"x":{"type":"string"}}}},"resource":{"a":{}}}`:                 "/subject/user/properties/x: attribute is missing",
		`{"subject":{"user":{"properties":{"x":{"attribute":"a","type":"double"}}}},"resource":{"a":{}}}`: "isn't here",
		`{"subject":{"user":{"colour":1}},"resource":{"a":{}}}`:                                           "/subject/user/colour: ",
	} {
		file := filepath.Join(t.TempDir(), "authzen.json")
		if err := os.WriteFile(file, []byte(content), 0o600); err != nil {
			t.Fatal(err)
		}
		f := launch(t, t.TempDir(), "--authzen", file)
		if status := f.status(); status != 1 || !strings.Contains(f.log(), want) {
			t.Errorf("%s ends the front by %d: %s", content, status, f.log())
		}
	}
}
