package main

import (
	"bufio"
	"encoding/json"
	"fmt"
	"io"
	"math/rand"
	"net/http"
	"os/exec"
	"strings"
	"testing"
)

// toolScript reads lines `["request", XML]` and `["response", JSON, XML]`. To the first it says how the tool writes the
// request, or whether it is none of the schema; to the second whether the tool writes the response as the same XML.
const toolScript = `
import json, sys
sys.path.insert(0, '../tools')
from lxml import etree
from xacml_form import places, requests

def same(a, b):
    inner = lambda e: (e.text or '') if len(e) == 0 else ''
    return (a.tag == b.tag and dict(a.attrib) == dict(b.attrib) and inner(a) == inner(b) and len(a) == len(b)
            and all(same(*pair) for pair in zip(a, b)))

def request(xml):
    told = places.Told('request')
    try:
        root, where = places.read(xml.encode())
    except places.NotRead:
        return {'invalid': True}
    found = requests.Requests(told, where).request(root)
    if found is None:
        return {'invalid': True}
    return {} if told.stops() else {'request': found}

for line in sys.stdin:
    kind, *given = json.loads(line)
    if kind == 'request':
        print(json.dumps(request(*given)), flush=True)
    else:
        ours, theirs = requests.response(json.loads(given[0])), etree.fromstring(given[1].encode())
        print(json.dumps({'same': same(ours, theirs)}), flush=True)
`

// tool is tools/xacml.py's reading and writing.
type tool struct {
	t     testing.TB
	input io.Writer
	said  *bufio.Reader
}

// theTool starts it, or skips the test where there is no lxml.
func theTool(t testing.TB) *tool {
	t.Helper()
	if exec.Command("/usr/bin/python3", "-c", "import lxml").Run() != nil {
		t.Skip("there is no python3-lxml")
	}
	process := exec.Command("/usr/bin/python3", "-c", toolScript)
	input, err := process.StdinPipe()
	if err != nil {
		t.Fatal(err)
	}
	output, err := process.StdoutPipe()
	if err != nil {
		t.Fatal(err)
	}
	if err := process.Start(); err != nil {
		t.Fatal(err)
	}
	t.Cleanup(func() {
		_ = input.Close()
		_ = process.Wait()
	})
	return &tool{t: t, input: input, said: bufio.NewReaderSize(output, 1<<20)}
}

// judged is what the tool says of a request or a response.
type judged struct {
	Request json.RawMessage
	Invalid bool
	Same    bool
}

// ask asks the tool.
func (w *tool) ask(what ...string) judged {
	w.t.Helper()
	written, err := json.Marshal(what)
	if err != nil {
		w.t.Fatal(err)
	}
	if _, err := w.input.Write(append(written, '\n')); err != nil {
		w.t.Fatal(err)
	}
	reply, err := w.said.ReadBytes('\n')
	if err != nil {
		w.t.Fatal(err)
	}
	var said judged
	if err := json.Unmarshal(reply, &said); err != nil {
		w.t.Fatal(err)
	}
	return said
}

// asXML sends a request in XML and takes the response in XML.
func (f *front) asXML(request string) (int, string) {
	f.t.Helper()
	answer, err := http.Post(f.url("/authorize"), "application/xacml+xml", strings.NewReader(request))
	if err != nil {
		f.t.Fatal(err)
	}
	kind := answer.Header.Get("Content-Type")
	if answer.StatusCode == http.StatusOK && kind != "application/xacml+xml" {
		f.t.Errorf("the response is of type %q", kind)
	}
	return bodyOf(f.t, answer)
}

const (
	requestBegins = `<?xml version="1.0"?><Request xmlns="urn:oasis:names:tc:xacml:3.0:core:schema:wd-17" `
	noWishes      = `ReturnPolicyIdList="false" CombinedDecision="false">`
)

// anyXML is a request in XML; one in some isn't of the schema, or holds what isn't here.
func anyXML(random *rand.Rand) string {
	pick := func(of ...string) string { return of[random.Intn(len(of))] }
	rarely := func(one, otherwise string) string {
		if random.Intn(60) == 0 {
			return one
		}
		return otherwise
	}
	value := func() string {
		kind, text := "string", pick("ann", "ben", " a  b ", "&lt;&amp;&#39;", "<![CDATA[<x>]]>", "", "&#233;", "<!-- c -->ann")
		switch random.Intn(8) {
		case 0:
			kind, text = "integer", pick("7", "+007", " -3 ", rarely("x", "0"))
		case 1:
			kind, text = "boolean", pick("true", "0", "\n1")
		case 2:
			kind, text = "dateTime", pick("2026-03-01T11:00:00", "2026-03-01T11:00:00Z", rarely("2026-03-01T11:00:00.5", "2026-01-01T00:00:00"))
		case 3:
			kind, text = "yearMonthDuration", pick("P1Y", "-P14M", "P1Y2M")
		case 4:
			kind, text = pick("anyURI", rarely("double", "anyURI")), pick("1", "2")
		}
		return `<AttributeValue ` + rarely("", `DataType="http://www.w3.org/2001/XMLSchema#`+kind+`"`) + `>` + text + `</AttributeValue>`
	}
	attribute := func() string {
		values := value()
		for random.Intn(2) == 0 {
			values += value()
		}
		return `<Attribute ` + rarely("", `AttributeId="`+pick("name", " now", "a&amp;b")+`" `) + pick(`Issuer="i" `, "", "") +
			rarely(`x="1" `, "") + rarely("", `IncludeInResult="`+pick("true", "false", "1", rarely("yes", "0"))+`"`) + `>` + rarely("text", "\n ") +
			values + `</Attribute>`
	}
	categories := []string{subjectCategory, environment, "urn:oasis:names:tc:xacml:3.0:attribute-category:action", "urn:own"}
	random.Shuffle(len(categories), func(i, j int) { categories[i], categories[j] = categories[j], categories[i] })
	body := rarely("", pick("<RequestDefaults><XPathVersion>x</XPathVersion></RequestDefaults>", "", ""))
	for at, category := range categories[:1+random.Intn(3)] {
		body += fmt.Sprintf(`<Attributes xml:id="%s" Category="%s">`, rarely(pick("1", "a"), fmt.Sprint("a", at)), category)
		for i := random.Intn(3); i > 0; i-- {
			body += attribute()
		}
		body += rarely("<Content/>", "") + `</Attributes>`
	}
	return requestBegins + rarely(`CombinedDecision="true">`, noWishes) + body + rarely(`<More/>`, ``) + rarely(`</Requests>`, `</Request>`)
}

// TestXML asks requests in XML, and sees that the response is what the tool makes of the response to the request that
// it reads; and that the front takes no request that isn't of the schema.
func TestXML(t *testing.T) {
	w, f := theTool(t), begin(t, t.TempDir())
	f.accept(oneRule(isGiven(subjectCategory, "name", "string", `"ann"`))...)
	f.accept(`{"do":"policy.replace","document":{"Policy":{"PolicyId":"p","Version":"1",` +
		`"RuleCombiningAlgId":"urn:oasis:names:tc:xacml:3.0:rule-combining-algorithm:deny-unless-permit","Rule":[{"RuleId":"r","Effect":"Permit",` +
		`"Condition":` + isGiven(subjectCategory, "name", "string", `"ann"`) + `}],"ObligationExpressions":[{"ObligationId":"<&",` +
		`"FulfillOn":"Permit","AttributeAssignmentExpression":[{"AttributeId":"n","Issuer":"i","Category":"c","Expression":` +
		`{"AttributeValue":{"Value":3}}},{"AttributeId":"b","Expression":{"AttributeValue":{"Value":true}}}]}],` +
		`"AdviceExpressions":[{"AdviceId":"told","AppliesTo":"Deny"}]}}}`)
	random := rand.New(rand.NewSource(80))
	same, refused, invalid := 0, 0, 0
	for i := 0; i < number("FRONT_XML", 150); i++ {
		request := anyXML(random)
		status, body := f.asXML(request)
		said := w.ask("request", request)
		switch {
		case said.Invalid:
			invalid++
			if status != http.StatusBadRequest {
				t.Errorf("%s is none of the schema, and is answered %d %s", request, status, body)
			}
		case said.Request == nil:
			refused++
			if status != http.StatusBadRequest && !strings.Contains(request, "double") {
				t.Errorf("%s is refused by the tool, and answered %d %s", request, status, body)
			}
		default:
			same++
			_, response := f.post("/authorize", string(said.Request))
			if status != http.StatusOK || !w.ask("response", response, body).Same {
				t.Fatalf("%s is answered %d %s, and by the tool %s", request, status, body, response)
			}
		}
	}
	t.Logf("%d the same, %d refused by both, %d of no schema", same, refused, invalid)
}

// TestXMLShapes asks requests in XML that the front translates, and such as it refuses with their place.
func TestXMLShapes(t *testing.T) {
	f := begin(t, t.TempDir())
	f.accept(oneRule(isGiven(environment, "now", "dateTime", `"2026-03-01T11:00:00"`))...)
	value := func(kind, text string) string {
		return `<AttributeValue DataType="` + kind + `">` + text + `</AttributeValue>`
	}
	now := func(id, text string) string {
		return fmt.Sprintf(`<Attributes %sCategory="%s"><Attribute AttributeId="now" IncludeInResult="false">%s</Attribute></Attributes>`,
			id, environment, value("http://www.w3.org/2001/XMLSchema#dateTime", text))
	}
	all := func(body string) string { return requestBegins + noWishes + body + "</Request>" }
	many := `<MultiRequests><RequestReference><AttributesReference ReferenceId="b"/></RequestReference><RequestReference>` +
		`<AttributesReference ReferenceId="a"/></RequestReference></MultiRequests>`
	for _, one := range []struct {
		request string
		status  int
		want    string
	}{
		{all(now("", "2026-03-01T12:00:00+01:00")), 200, "<Decision>Permit</Decision>"},
		{all(now("", "2026-03-01T11:00:00.0Z") + now("", "2026-03-01T11:00:01")), 200, "Permit</Decision><Status><StatusCode"},
		{all(now(`xml:id="a" `, "2026-03-01T11:00:00") + now(`xml:id="b" `, "2026-03-01T12:00:00") + many), 200, "<Decision>Deny</Decision>"},
		{all(strings.Replace(now("", "x"), "#dateTime", "#double", 1)), 200, "<Decision>Deny</Decision>"},
		{all(now("", "2026-03-01T11:00:00.1")), 400, `"place":"/Request/Attributes[1]/Attribute[1]/AttributeValue[1]"`},
		{all(strings.Replace(strings.Replace(now("", "x"), "#dateTime", "#double", 1), `"false"`, `"true"`, 1)), 400, "#double isn't here"},
		{all(now("", "&now;")), 400, "invalid character entity"},
		{`<!DOCTYPE Request [<!ENTITY now "2026-03-01T11:00:00">]>` + all(now("", "&now;")), 400, "no document type"},
		{all(strings.Replace(now("", "x"), "</Attributes>", "<Content><x/></Content></Attributes>", 1)), 400, "what stands in it"},
		{requestBegins + `ReturnPolicyIdList="true" CombinedDecision="false">` + now("", "x") + "</Request>", 400, "ReturnPolicyIdList isn't here"},
		{all(strings.Repeat("<Attributes>", 200)), 400, "nest"},
		{"", 400, "it isn't one element"},
	} {
		if status, body := f.asXML(one.request); status != one.status || !strings.Contains(body, one.want) {
			t.Errorf("%s is answered %d %s, and not %s", one.request, status, body, one.want)
		}
	}
}
