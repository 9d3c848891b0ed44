package scim

// text is an attribute that is a text.
func text(name, about string) *Attribute {
	return &Attribute{
		Name: name, Type: TypeString, Description: about, Mutability: "readWrite", Returned: "default", Uniqueness: "none",
	}
}

// truth is an attribute that is true or false.
func truth(name, about string) *Attribute {
	a := text(name, about)
	a.Type = TypeBoolean
	return a
}

// reference is an attribute that names something by its address.
func reference(name, about string, to ...string) *Attribute {
	a := text(name, about)
	a.Type, a.CaseExact, a.References = TypeReference, true, to
	return a
}

// object is an attribute of several parts.
func object(name, about string, parts ...*Attribute) *Attribute {
	a := text(name, about)
	a.Type, a.Sub = TypeComplex, parts
	return a
}

// many has an attribute have several values.
func many(a *Attribute) *Attribute {
	a.MultiValued = true
	return a
}

// told has an attribute be told, and not set.
func told(a *Attribute) *Attribute {
	a.Mutability = "readOnly"
	for _, part := range a.Sub {
		part.Mutability = "readOnly"
	}
	return a
}

// plural is an attribute of several values, each with its parts: value, display, type and primary.
func plural(name, about string, value *Attribute, types ...string) *Attribute {
	kind := text("type", "What the value is for.")
	kind.Canonical = types
	return many(object(name, about, value, text("display", "The value for people to read."), kind,
		truth("primary", "Whether it is the preferred one; at most one is.")))
}

// userName is the name of a user.
func userName() *Attribute {
	a := text("userName", "The name by which the user signs in, which no other user has, in whatever case.")
	a.Required, a.Uniqueness = true, "server"
	return a
}

var userSchema = &Schema{
	ID: UserSchema, Name: "User", Description: "Somebody who has an account.",
	Attributes: []*Attribute{
		userName(),
		object("name", "The parts of the user's name.", text("formatted", "All of it."), text("familyName", "The last name."),
			text("givenName", "The first name."), text("middleName", "Names between."),
			text("honorificPrefix", "What stands before."), text("honorificSuffix", "What stands behind.")),
		text("displayName", "The name that others are shown."), text("nickName", "What the user is called."),
		reference("profileUrl", "A page about the user.", "external"), text("title", "As which the user works."),
		text("userType", "What the user is to the company."), text("preferredLanguage", "The language to be spoken."),
		text("locale", "How numbers and days are written."), text("timezone", "The zone of times."),
		truth("active", "Whether the account is in use: else the table has no such person."),
		plural("emails", "Addresses of mail.", text("value", "The address."), "work", "home", "other"),
		plural("phoneNumbers", "Numbers of telephones.", text("value", "The number."), "work", "home", "mobile", "fax",
			"pager", "other"),
		plural("ims", "Addresses of messages.", text("value", "The address.")),
		plural("photos", "Addresses of pictures.", reference("value", "The address.", "external"), "photo", "thumbnail"),
		many(object("addresses", "Where the user is.", text("formatted", "All of it."), text("streetAddress", "The street."),
			text("locality", "The town."), text("region", "The state."), text("postalCode", "The code of the town."),
			text("country", "The country, by two letters."), text("type", "What it is for."),
			truth("primary", "Whether it is the preferred one."))),
		told(many(object("groups", "The groups that the user is in, also by others.", text("value", "The group's id."),
			reference("$ref", "Where the group is.", "Group"), text("display", "The group's name."),
			text("type", "direct, or indirect: by another group.")))),
		plural("entitlements", "What the user may have.", text("value", "The entitlement.")),
		plural("roles", "What the user is.", text("value", "The role.")),
		plural("x509Certificates", "Certificates.", &Attribute{
			Name: "value", Type: TypeBinary, CaseExact: true, Mutability: "readWrite", Returned: "default", Uniqueness: "none",
		}),
	},
}

// name is the name of a group.
func groupName() *Attribute {
	a := text("displayName", "The name of the group.")
	a.Required = true
	return a
}

// memberID is the id of a member.
func memberID() *Attribute {
	a := text("value", "The id of the user or group.")
	a.CaseExact, a.Mutability = true, "immutable"
	return a
}

var groupSchema = &Schema{
	ID: GroupSchema, Name: "Group", Description: "Users and other groups.",
	Attributes: []*Attribute{
		groupName(),
		many(object("members", "Who is in it.", memberID(), told(reference("$ref", "Where it is.", "User", "Group")),
			told(text("type", "User or Group.")), told(text("display", "Its name.")))),
	},
}

var enterpriseSchema = &Schema{
	ID: EnterpriseSchema, Name: "EnterpriseUser", Description: "What a company says of a user.",
	Attributes: []*Attribute{
		text("employeeNumber", "The number of the user in the company."), text("costCenter", "Who pays."),
		text("organization", "The company."), text("division", "A part of it."), text("department", "A part of that."),
		object("manager", "To whom the user reports.", managerID(), reference("$ref", "Where that user is.", "User"),
			told(text("displayName", "That user's name."))),
	},
}

// managerID is the id of a manager.
func managerID() *Attribute {
	a := text("value", "The id of the user.")
	a.CaseExact = true
	return a
}
