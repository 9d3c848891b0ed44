package main

import (
	"strings"
	"testing"
)

// TestModuleNames has modules of attributes told by name, in rows and in what an answer rests on.
func TestModuleNames(t *testing.T) {
	f := begin(t, t.TempDir(), "--module-names", "hr,it", "--attribute-modules", "3")
	f.accept(teamPolicy...)
	set := func(module, category, entity, attribute, kind, values string) string {
		return `{"do":"attr.set","module":` + module + `,"category":"` + category + `","entity":"` + entity +
			`","attribute":"` + attribute + `","type":"` + kind + `","values":` + values + `}`
	}
	f.accept(`{"do":"person.add","name":"ann"}`, `{"do":"resource.add","name":"disk"}`,
		set("0", "AccessSubject", "ann", "cleared", "boolean", "[true]"),
		set("1", "AccessSubject", "ann", "cleared", "boolean", "[false]"),
		set("1", "AccessSubject", "ann", "teams", "string", `["a<b","it"]`),
		set("2", "Resource", "disk", "teams", "string", `["it"]`))
	rows := f.must("/attributes?category=AccessSubject&entity=ann")
	for _, want := range []string{
		`"module":0,"module_name":"hr","values":[true]`, `"module":1,"module_name":"it","values":["a<b","it"]`,
	} {
		if !strings.Contains(rows, want) {
			t.Errorf("there is no %s in %s", want, rows)
		}
	}
	if told := f.must("/attributes?category=Resource&entity=disk"); strings.Contains(told, "module_name") {
		t.Errorf("a module without a name has one: %s", told)
	}
	for _, path := range []string{"/explain/ann/use/disk", "/explain/ann/use/disk?at=9"} {
		told := f.must(path)
		for _, want := range []string{
			`"entity":"ann","issuer":null,"module":0,"module_name":"hr","values":[true]`,
			`"entity":"ann","issuer":null,"module":1,"module_name":"it","values":["a<b","it"]`,
			`"entity":"disk","issuer":null,"values":["it"]`,
		} {
			if !strings.Contains(told, want) {
				t.Errorf("there is no %s in what %s tells: %s", want, path, told)
			}
		}
	}
	// Lines are answered as the program writes them, and so is a front without names.
	line := `{"do":"attributes","category":"AccessSubject","entity":"ann"}`
	if told := f.lines(line)[0]; strings.Contains(told, "module_name") {
		t.Errorf("a line is answered %s", told)
	}
	for _, names := range []string{"hr,hr", "hr,", "a,b,c"} {
		if status := launch(t, t.TempDir(), "--module-names", names).status(); status != 2 {
			t.Errorf("a front with modules %s ends with %d", names, status)
		}
	}
}
