package profile

import (
	"encoding/json"
	"errors"
	"strings"

	"review-front/places"
)

// elsewhere says of a type that isn't here why its attribute can't be asked.
const elsewhere = "the type %s isn't here, and the attribute is to be included in the result"

// attributeOf reads an attribute. It is false where the attribute is of a type that isn't here and isn't to be included
// in the result: no document can name it, so that it has no part in any answer (section 7.3.5).
func attributeOf(n places.Node) (Attribute, bool, error) {
	var found Attribute
	err := n.Only("AttributeId", "DataType", "IncludeInResult", "Issuer", "Value")
	if err == nil {
		found.ID, err = n.NeededName("AttributeId")
	}
	if err != nil {
		return found, false, err
	}
	issuer, there, err := n.Name("Issuer")
	if err != nil {
		return found, false, err
	}
	if there {
		found.Issuer = &issuer
	}
	if found.Included, err = n.Flag("IncludeInResult"); err != nil {
		return found, false, err
	}
	list, err := n.Needed("Value")
	if err != nil {
		return found, false, err
	}
	values, err := list.Members()
	if err != nil {
		return found, false, err
	}
	at, err := datatypeOf(n, list, values, &found.Type)
	if err != nil {
		return found, false, err
	}
	if !here[found.Type] {
		if found.Included {
			return found, false, at.Fault(elsewhere, found.Type)
		}
		return found, false, nil
	}
	found.Values = []any{}
	for _, one := range values {
		read, wrong := value(found.Type, one.Value)
		if wrong != "" {
			return found, false, one.Fault("%s", wrong)
		}
		found.Values = append(found.Values, read)
	}
	return found, true, nil
}

// datatypeOf finds the type of an attribute's values, and says where it is told.
func datatypeOf(n, list places.Node, values []places.Node, uri *string) (places.Node, error) {
	name, there, err := n.Text("DataType")
	if err != nil {
		return n, err
	}
	if !there {
		var wrong string
		if *uri, wrong = typeByValues(values); wrong != "" {
			return list, list.Fault("%s", wrong)
		}
		return list, nil
	}
	at, _ := n.Child("DataType")
	var ok bool
	if *uri, ok = typeOf(name); !ok {
		return at, at.Fault("%q is no data type", name)
	}
	return at, nil
}

// typeByValues is the type of values that name none: all are texts, all are booleans, or all are numbers, which are of
// type double if one has a fraction or an exponent. No value at all is of type string.
func typeByValues(values []places.Node) (uri, wrong string) {
	for _, one := range values {
		var own string
		switch value := one.Value.(type) {
		case string:
			own = typeString
		case bool:
			own = typeBoolean
		case json.Number:
			own = typeInteger
			if strings.ContainsAny(value.String(), ".eE") {
				own = typeDouble
			}
		default:
			return "", "a value is a text, true, false or a number"
		}
		isNumber := own == typeInteger || own == typeDouble
		switch {
		case uri == "" || own == uri:
			uri = own
		case isNumber && (uri == typeInteger || uri == typeDouble):
			uri = typeDouble
		default:
			return "", "values without a DataType are texts, booleans or numbers, all of one kind"
		}
	}
	if uri == "" {
		uri = typeString
	}
	return uri, ""
}

// Given is an attribute that somebody gives in another form than a request has: a value, or a list of values, which
// stands at a place there. It has its type, or else that of its values. It is false as in a request.
func Given(at places.Node, id, datatype string) (Attribute, bool, error) {
	object := map[string]any{"AttributeId": id, "Value": at.Value}
	if datatype != "" {
		object["DataType"] = datatype
	}
	made, isHere, err := attributeOf(places.Node{Value: object, Place: at.Place})
	var fault *places.Fault
	if errors.As(err, &fault) {
		inner := strings.TrimPrefix(strings.TrimPrefix(fault.Place, at.Place), "/Value")
		err = &places.Fault{Place: at.Place + inner, What: fault.What}
	}
	return made, isHere, err
}

// Named is the attribute that has a name.
func Named(id, name string) Attribute {
	return Attribute{ID: id, Type: typeString, Values: []any{name}}
}
