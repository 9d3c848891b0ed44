package profile

import "strings"

const xmlSchema = "http://www.w3.org/2001/XMLSchema#"

// The types that are here, by their URIs (appendix B.3).
const (
	typeString   = xmlSchema + "string"
	typeBoolean  = xmlSchema + "boolean"
	typeInteger  = xmlSchema + "integer"
	typeDate     = xmlSchema + "date"
	typeTime     = xmlSchema + "time"
	typeDateTime = xmlSchema + "dateTime"
	typeURI      = xmlSchema + "anyURI"
	typeDuration = xmlSchema + "yearMonthDuration"
	// typeDouble isn't here, and is that of numbers which aren't whole.
	typeDouble = xmlSchema + "double"
)

// here has the types that are here.
var here = map[string]bool{
	typeString: true, typeBoolean: true, typeInteger: true, typeDate: true, typeTime: true, typeDateTime: true,
	typeURI: true, typeDuration: true,
}

// olderNames are URIs that a type had before, by what it has now.
var olderNames = map[string]string{
	"http://www.w3.org/TR/2002/WD-xquery-operators-20020816#yearMonthDuration": typeDuration,
	"urn:oasis:names:tc:xacml:2.0:data-type:yearMonthDuration":                 typeDuration,
}

// shortNames are the names that types have in the JSON Profile beside their URIs.
var shortNames = map[string]string{
	"string": typeString, "boolean": typeBoolean, "integer": typeInteger, "double": typeDouble, "time": typeTime,
	"date": typeDate, "dateTime": typeDateTime, "anyURI": typeURI, "yearMonthDuration": typeDuration,
	"dayTimeDuration": xmlSchema + "dayTimeDuration", "hexBinary": xmlSchema + "hexBinary",
	"base64Binary":    xmlSchema + "base64Binary",
	"rfc822Name":      "urn:oasis:names:tc:xacml:1.0:data-type:rfc822Name",
	"x500Name":        "urn:oasis:names:tc:xacml:1.0:data-type:x500Name",
	"ipAddress":       "urn:oasis:names:tc:xacml:2.0:data-type:ipAddress",
	"dnsName":         "urn:oasis:names:tc:xacml:2.0:data-type:dnsName",
	"xpathExpression": "urn:oasis:names:tc:xacml:3.0:data-type:xpathExpression",
}

// typeOf is the URI of a type by its name, which is false where the name is none: neither a short one nor a URI.
func typeOf(name string) (string, bool) {
	if uri, ok := shortNames[name]; ok {
		return uri, true
	}
	if uri, ok := olderNames[name]; ok {
		return uri, true
	}
	return name, strings.Contains(name, ":")
}

// named are the categories that have a short name, in the order in which a request has them (appendix B.2).
var named = []struct{ name, uri string }{
	{"AccessSubject", "urn:oasis:names:tc:xacml:1.0:subject-category:access-subject"},
	{"Action", "urn:oasis:names:tc:xacml:3.0:attribute-category:action"},
	{"Resource", "urn:oasis:names:tc:xacml:3.0:attribute-category:resource"},
	{"Environment", "urn:oasis:names:tc:xacml:3.0:attribute-category:environment"},
	{"RecipientSubject", "urn:oasis:names:tc:xacml:1.0:subject-category:recipient-subject"},
	{"IntermediarySubject", "urn:oasis:names:tc:xacml:1.0:subject-category:intermediary-subject"},
	{"Codebase", "urn:oasis:names:tc:xacml:1.0:subject-category:codebase"},
	{"RequestingMachine", "urn:oasis:names:tc:xacml:1.0:subject-category:requesting-machine"},
}

// CategoryOf is the URI that a name of a category stands for: that of the short name which it is, or else itself.
func CategoryOf(name string) string {
	for _, one := range named {
		if one.name == name {
			return one.uri
		}
	}
	return name
}

// TypeOf is the URI that a name of a data type stands for: that of the short name which it is, or else itself.
func TypeOf(name string) string {
	uri, _ := typeOf(name)
	return uri
}

// IsHere says whether a name is that of a type that is here.
func IsHere(name string) bool {
	uri, ok := typeOf(name)
	return ok && here[uri]
}
