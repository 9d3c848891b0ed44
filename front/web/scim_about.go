package web

import (
	"net/http"

	"review-front/scim"
)

const aboutSchemas = "urn:ietf:params:scim:schemas:core:2.0:"

// supported says that something is supported, or isn't.
func supported(is bool, more ...object) object {
	told := object{"supported": is}
	for _, one := range more {
		for name, value := range one {
			told[name] = value
		}
	}
	return told
}

// scimConfiguration tells what is supported.
func (s *Server) scimConfiguration(w *answered, r *http.Request, _ map[string]string) {
	if !s.mayAll(w, r, aboutScim("scim.read", "", "")) {
		return
	}
	sendScim(w, http.StatusOK, object{
		"schemas":        []string{aboutSchemas + "ServiceProviderConfig"},
		"patch":          supported(true),
		"bulk":           supported(false, object{"maxOperations": 0, "maxPayloadSize": 0}),
		"filter":         supported(true, object{"maxResults": mostScimPage}),
		"changePassword": supported(false),
		"sort":           supported(true),
		"etag":           supported(true),
		"authenticationSchemes": []object{{
			"type": "oauthbearertoken", "name": "Bearer token", "description": "A token in the field Authorization.",
			"primary": true,
		}},
		"meta": object{
			"resourceType": "ServiceProviderConfig", "location": scimBase(r) + "/ServiceProviderConfig",
		},
	})
}

// scimSchemas tells of all schemas, or of one.
func (s *Server) scimSchemas(w *answered, r *http.Request, keys map[string]string) {
	if !s.mayAll(w, r, aboutScim("scim.read", "", "")) {
		return
	}
	var all []any
	for _, one := range s.Keeper.Provision.Kinds.Schemas() {
		told := object{
			"schemas": []string{aboutSchemas + "Schema"}, "id": one.ID, "name": one.Name, "description": one.Description,
			"attributes": one.Attributes,
			"meta":       object{"resourceType": "Schema", "location": scimBase(r) + "/Schemas/" + one.ID},
		}
		if keys["schema"] == one.ID {
			sendScim(w, http.StatusOK, told)
			return
		}
		all = append(all, told)
	}
	s.tellAbout(w, r, "Schema", keys["schema"], all)
}

// scimTypes tells of all types of resources, or of one.
func (s *Server) scimTypes(w *answered, r *http.Request, keys map[string]string) {
	if !s.mayAll(w, r, aboutScim("scim.read", "", "")) {
		return
	}
	var all []any
	for _, kind := range s.Keeper.Provision.Kinds.All() {
		extensions := []object{}
		for _, one := range kind.Extensions {
			extensions = append(extensions, object{"schema": one.ID, "required": false})
		}
		told := object{
			"schemas": []string{aboutSchemas + "ResourceType"}, "id": kind.Name, "name": kind.Name,
			"description": kind.Core.Description, "endpoint": kind.Endpoint, "schema": kind.Core.ID,
			"schemaExtensions": extensions,
			"meta":             object{"resourceType": "ResourceType", "location": scimBase(r) + "/ResourceTypes/" + kind.Name},
		}
		if keys["name"] == kind.Name {
			sendScim(w, http.StatusOK, told)
			return
		}
		all = append(all, told)
	}
	s.tellAbout(w, r, "ResourceType", keys["name"], all)
}

// tellAbout answers with all schemas or types, which have no filter (RFC 7644, 4).
func (s *Server) tellAbout(w *answered, r *http.Request, kind, id string, all []any) {
	if id != "" {
		problemFor(scim.Missing(kind, id)).send(w)
		return
	}
	if r.URL.Query().Get("filter") != "" {
		problem{Title: "not allowed", Status: http.StatusForbidden, Detail: "these have no filter"}.send(w)
		return
	}
	sendScim(w, http.StatusOK, object{
		"schemas": []string{scim.ListMessage}, "totalResults": len(all), "startIndex": 1, "itemsPerPage": len(all),
		"Resources": all,
	})
}
