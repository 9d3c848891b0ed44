// Policies as ALFA, for people who read: the names of what documents name by ids. It says the same as
// tools/alfa_form/writing_names.py and preparing.py, which tools/try_alfa.py compares.

const ALFA_KEYWORDS = new Set(['namespace', 'import', 'category', 'type', 'attribute', 'obligation', 'advice',
  'function', 'policyCombinator', 'ruleCombinator', 'policycombinator', 'rulecombinator', 'infix', 'policyset',
  'policy', 'rule', 'target', 'clause', 'apply', 'condition', 'permit', 'deny', 'on', 'or', 'and', 'true', 'false']);
const ALFA_SUBJECT = 'urn:oasis:names:tc:xacml:1.0:subject-category:';
const ALFA_CATEGORIES = new Map([
  [`${ALFA_SUBJECT}access-subject`, 'subjectCat'],
  ['urn:oasis:names:tc:xacml:3.0:attribute-category:resource', 'resourceCat'],
  ['urn:oasis:names:tc:xacml:3.0:attribute-category:action', 'actionCat'],
  ['urn:oasis:names:tc:xacml:3.0:attribute-category:environment', 'environmentCat'],
  [`${ALFA_SUBJECT}recipient-subject`, 'recipientSubjectCat'],
  [`${ALFA_SUBJECT}intermediary-subject`, 'intermediarySubjectCat'],
  [`${ALFA_SUBJECT}codebase`, 'codebaseCat'],
  [`${ALFA_SUBJECT}requesting-machine`, 'requestingMachineCat'],
]);
const ALFA_TYPE = 'http://www.w3.org/2001/XMLSchema#';
const ALFA_TAGS = /^(@(version|earliest|latest)[ \t]+([^ \t]+)[ \t]*)+$/;
const ALFA_MOST_NODES = 65536, ALFA_MOST_NAME = 60;
const ALFA_GIVEN = [
  ['obligation', 'ObligationExpressions', 'ObligationId', 'FulfillOn'],
  ['advice', 'AdviceExpressions', 'AdviceId', 'AppliesTo'],
];

// Why a document can't be written.
class AlfaUnsayable extends Error {}

// JSON whose whole numbers are kept as they stand, also where they are longer than a number of this language is.
function alfaParsed(text) {
  const kept = (part) => (part[0] === '"' ? part : `{"whole":"${part}"}`);
  const isKept = (value) => value !== null && typeof value === 'object' && Object.keys(value).join() === 'whole';
  const whole = text.replace(/"(?:[^"\\]|\\.)*"|-?\d{16,}/g, kept);
  return JSON.parse(whole, (_, value) => (isKept(value) ? BigInt(value.whole) : value));
}

// The one key of an object, with its value.
function alfaOnly(json) {
  return Object.entries(json)[0];
}

// The last word of a URI.
function alfaLast(uri) {
  return uri.slice(uri.lastIndexOf(':') + 1);
}

// A word with a capital.
function alfaCapital(word) {
  return word.slice(0, 1).toUpperCase() + word.slice(1);
}

// The name of a function or an algorithm: the words of the standard's name without dashes.
function alfaCamel(uri) {
  return alfaLast(uri).split('-').map((word, number) => (number === 0 ? word : alfaCapital(word))).join('');
}

// The short name of a data type.
function alfaKind(uri) {
  return uri.startsWith(ALFA_TYPE) ? uri.slice(ALFA_TYPE.length) : uri;
}

// The type of a literal.
function alfaLiteralKind({ DataType, Value }) {
  if (DataType !== undefined) return alfaKind(DataType);
  return { boolean: 'boolean', string: 'string' }[typeof Value] ?? 'integer';
}

// The type of the value, or of the values, that an expression gives.
function alfaTypeOf(expression) {
  const [key, inner] = alfaOnly(expression);
  if (key === 'AttributeValue') return alfaLiteralKind(inner);
  if (key === 'AttributeDesignator') return alfaKind(inner.DataType);
  const name = alfaLast(inner.FunctionId), kind = name.split('-')[0], rest = name.slice(kind.length + 1);
  if (['one-and-only', 'bag', 'union', 'intersection'].includes(rest)) return kind;
  if (rest === 'bag-size') return 'integer';
  if (kind === 'integer' && ['add', 'multiply', 'subtract', 'divide', 'mod', 'abs'].includes(rest)) return kind;
  return name === 'string-concatenate' ? kind : /^date-(add|subtract)-/.test(name) ? 'date' : 'boolean';
}

// Whether a text can be a name as it stands.
function alfaIsName(text) {
  return /^[A-Za-z_][A-Za-z0-9_]*$/.test(text) && !ALFA_KEYWORDS.has(text);
}

// A name like an id: of its last part the words, joined as in ALFA.
function alfaName(identifier, otherwise) {
  const parts = identifier.split(/[:/#]/).filter((part) => /[A-Za-z0-9]/.test(part));
  const words = (parts.length ? parts[parts.length - 1] : '').match(/[A-Za-z0-9]+/g) ?? [];
  let made = words.map((word, number) => (number === 0 ? word : alfaCapital(word))).join('').slice(0, ALFA_MOST_NAME);
  if (made === '' || /^[0-9]/.test(made)) made = otherwise + made;
  return ALFA_KEYWORDS.has(made) ? `${made}_` : made;
}

// A name that isn't taken, which is taken then.
function alfaUnique(name, taken) {
  let made = name;
  for (let number = 2; taken.has(made); number += 1) made = `${name}${number}`;
  taken.add(made);
  return made;
}

// A description as a comment can hold it.
function alfaSayable(text) {
  const lines = text.replaceAll('*/', '* /').split(/\r\n|\r|\n/).map((line) => line.replace(/^[ \t]+|[ \t]+$/g, ''));
  return lines.filter((line) => !ALFA_TAGS.test(line)).join('\n').replace(/^[ \t\n]+|[ \t\n]+$/g, '');
}

// The variables of a policy, which are written out.
class AlfaVariables {
  constructor(definitions = []) {
    this.definitions = new Map(definitions.map((each) => [each.VariableId, each.Expression]));
    this.sizes = new Map();
    this.left = ALFA_MOST_NODES;
  }

  // How many nodes an expression has once it is written out.
  size(expression) {
    const name = expression.VariableReference?.VariableId;
    if (name === undefined) {
      return (expression.Apply?.Arguments ?? []).reduce((sum, each) => sum + this.size(each), 1);
    }
    if (!this.definitions.has(name)) throw new AlfaUnsayable(`the variable ${name} isn't defined`);
    if (!this.sizes.has(name)) {
      this.sizes.set(name, ALFA_MOST_NODES);
      this.sizes.set(name, this.size(this.definitions.get(name)));
    }
    return this.sizes.get(name);
  }

  // An expression without variables.
  out(expression) {
    this.left -= this.size(expression);
    if (this.left < 0) throw new AlfaUnsayable('with its variables written out it has too many nodes');
    return this.whole(expression);
  }

  // The same, of which it is known that it isn't too long.
  whole(expression) {
    if (expression.VariableReference) {
      return this.whole(this.definitions.get(expression.VariableReference.VariableId));
    }
    const inner = expression.Apply;
    if (!inner?.Arguments) return expression;
    return { Apply: { ...inner, Arguments: inner.Arguments.map((each) => this.whole(each)) } };
  }
}

// The obligations and advice of an element, of a rule those that come, without issuers.
function alfaGiven(made, variables, effect) {
  for (const [, key, , on] of ALFA_GIVEN) {
    if (!made[key]) continue;
    made[key] = made[key].filter((each) => !effect || each[on] === effect).map((each) => {
      const assigned = (each.AttributeAssignmentExpression ?? []).map(({ Issuer, ...rest }) => (
        { ...rest, Expression: variables.out(rest.Expression) }));
      return { ...each, AttributeAssignmentExpression: assigned };
    });
  }
}

// A description that a comment can hold, in its element.
function alfaDescribed(made) {
  if (made.Description === undefined) return;
  made.Description = alfaSayable(made.Description);
  if (made.Description === '') delete made.Description;
}

// A document as ALFA can say it.
function alfaPrepared(json) {
  const [kind, body] = alfaOnly(json);
  if (kind !== 'Policy' && kind !== 'PolicySet') return json;
  const { VariableDefinition, ...made } = body;
  const variables = new AlfaVariables(VariableDefinition);
  alfaDescribed(made);
  if (made.Rule) {
    made.Rule = made.Rule.map((rule) => {
      const one = { ...rule };
      alfaDescribed(one);
      if (one.Condition) one.Condition = variables.out(one.Condition);
      alfaGiven(one, variables, one.Effect);
      return one;
    });
  }
  if (made.Children) made.Children = made.Children.map(alfaPrepared);
  alfaGiven(made, variables);
  return { [kind]: made };
}

// A key of an attribute: its category, its id and its type.
function alfaKey(category, identifier, kind) {
  return JSON.stringify([category, identifier, kind]);
}

// The names of what documents name: categories, attributes, obligations and advice.
class AlfaNames {
  constructor(documents) {
    this.keys = new Map();
    this.ids = { obligation: new Map(), advice: new Map() };
    documents.forEach((each) => this.walk(each));
    this.categories = new Map();
    const taken = new Set();
    for (const [category] of this.keys.values()) {
      if (this.categories.has(category)) continue;
      const name = category === '' ? 'noCat' : `${alfaName(category, 'category')}Cat`;
      this.categories.set(category, ALFA_CATEGORIES.get(category) ?? alfaUnique(name, taken));
    }
    this.nameAttributes();
    for (const [kind, ids] of Object.entries(this.ids)) {
      const names = new Set();
      for (const each of ids.keys()) ids.set(each, alfaUnique(alfaName(each, kind), names));
    }
  }

  // Notes what a document names, or one inside of it.
  walk(json) {
    const [kind, body] = alfaOnly(json);
    if (kind !== 'Policy' && kind !== 'PolicySet') return;
    this.target(body);
    for (const rule of body.Rule ?? []) {
      this.target(rule);
      this.expression(rule.Condition ?? {});
      this.given(rule);
    }
    (body.Children ?? []).forEach((child) => this.walk(child));
    this.given(body);
  }

  // Notes an attribute.
  note(category, identifier, kind) {
    const key = alfaKey(category, identifier, kind);
    if (!this.keys.has(key)) this.keys.set(key, [category, identifier, kind]);
  }

  // Notes what a designator names.
  designator(found) {
    this.note(found.Category, found.AttributeId, alfaKind(found.DataType));
  }

  // Notes what a target names.
  target(body) {
    for (const anyOf of body.Target?.AnyOf ?? []) {
      for (const allOf of anyOf.AllOf) allOf.Match.forEach((match) => this.designator(match.AttributeDesignator));
    }
  }

  // Notes what an expression names.
  expression(expression) {
    if (expression.AttributeDesignator) this.designator(expression.AttributeDesignator);
    (expression.Apply?.Arguments ?? []).forEach((each) => this.expression(each));
  }

  // Notes obligations and advice, and what they assign.
  given(body) {
    for (const [kind, key, name] of ALFA_GIVEN) {
      for (const each of body[key] ?? []) {
        this.ids[kind].set(each[name], null);
        for (const one of each.AttributeAssignmentExpression ?? []) {
          this.note(one.Category ?? '', one.AttributeId, alfaTypeOf(one.Expression));
          this.expression(one.Expression);
        }
      }
    }
  }

  // Names attributes by their ids; where several have one name, with the category, and with the type.
  nameAttributes() {
    const keys = [...this.keys.values()];
    const short = keys.map(([, identifier]) => alfaName(identifier, 'attribute'));
    const longer = keys.map(([category], number) => this.category(category) + alfaCapital(short[number]));
    const longest = keys.map(([, , kind], number) => longer[number] + alfaCapital(kind));
    const taken = new Set(), isOnly = (names, number) => names.filter((name) => name === names[number]).length === 1;
    this.attributes = new Map();
    keys.forEach((key, number) => {
      const names = [short, longer].find((each) => isOnly(each, number)) ?? longest;
      this.attributes.set(alfaKey(...key), alfaUnique(names[number], taken));
    });
  }

  // A short name of a category.
  category(uri) {
    if (uri === '') return 'given';
    return ALFA_CATEGORIES.get(uri)?.replace(/Cat$/, '') ?? alfaName(uri, 'category');
  }

  // The name of what a designator asks for.
  asked(inner) {
    return this.attributes.get(alfaKey(inner.Category, inner.AttributeId, alfaKind(inner.DataType)));
  }

  // The name of what is assigned.
  assigned(one) {
    return this.attributes.get(alfaKey(one.Category ?? '', one.AttributeId, alfaTypeOf(one.Expression)));
  }
}
