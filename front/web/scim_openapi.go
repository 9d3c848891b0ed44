package web

import "net/http"

// scimOperations has what is said of SCIM's paths.
var scimOperations = func() map[string]operation {
	all := map[string]operation{
		"GET /scim/v2/ServiceProviderConfig": scimTelling("Tells what of SCIM there is here.", "patch"),
		"GET /scim/v2/Schemas":               scimTelling("Lists the schemas.", "Resources"),
		"GET /scim/v2/Schemas/{schema}":      scimTelling("Tells of a schema.", "attributes"),
		"GET /scim/v2/ResourceTypes":         scimTelling("Lists the types of resources.", "Resources"),
		"GET /scim/v2/ResourceTypes/{name}":  scimTelling("Tells of a type of resources.", "endpoint"),
		"POST /scim/v2/.search":              scimTaking("Finds users and groups.", "Resources"),
		"POST /scim/v2/Bulk":                 {does: "There is no bulk here.", takes: []string{scimType}},
		"GET " + holdPath:                    telling("Tells whether provisioning is held.", "held"),
		"POST " + holdPath:                   taking("Holds provisioning.", "held"),
		"DELETE " + holdPath:                 {does: "Lets provisioning on.", done: http.StatusNoContent},
	}
	for _, method := range []string{"GET", "POST", "PUT", "PATCH", "DELETE"} {
		all[method+" /scim/v2/Me"] = operation{does: "There is no such path here: who asks is no user."}
	}
	for path, what := range map[string]string{"/scim/v2/Users": "user", "/scim/v2/Groups": "group"} {
		list := scimTelling("Lists "+what+"s.", "Resources")
		list.keys = scimKeys
		all["GET "+path] = list
		all["POST "+path+"/.search"] = scimTaking("Finds "+what+"s.", "Resources")
		made := scimTaking("Makes a "+what+".", "id")
		made.done = http.StatusCreated
		all["POST "+path] = made
		read := scimTelling("Tells of a "+what+".", "id")
		read.keys = askedKeys
		all["GET "+path+"/{id}"] = read
		all["PUT "+path+"/{id}"] = scimTaking("Replaces a "+what+".", "id")
		patched := scimTaking("Changes a "+what+" by operations.", "id")
		if what == "group" {
			patched = operation{does: patched.does, takes: patched.takes, done: http.StatusNoContent}
		}
		all["PATCH "+path+"/{id}"] = patched
		all["DELETE "+path+"/{id}"] = operation{does: "Takes a " + what + " away.", done: http.StatusNoContent}
	}
	return all
}()

// scimTelling is an operation that takes no body and gives SCIM's JSON with a key.
func scimTelling(does, has string) operation {
	return operation{does: does, gives: []string{scimType}, has: has}
}

// scimTaking is one that takes a body, too.
func scimTaking(does, has string) operation {
	return operation{does: does, takes: []string{scimType, jsonType}, gives: []string{scimType}, has: has}
}
