// Policies as ALFA, for people who read: documents as a file of ALFA, or one rule of them. It says the same as
// tools/alfa_form/writing.py and writing_expressions.py, which tools/try_alfa.py compares. alfa-names.js stands before
// it.

const ALFA_WIDTH = 110, ALFA_STEP = '    ', ALFA_DECLARED = 'attributes';
const ALFA_ORDERS = new Map([['equal', '=='], ['greater-than', '>'], ['greater-than-or-equal', '>='],
  ['less-than', '<'], ['less-than-or-equal', '<=']]);
const ALFA_TURNED = { '==': '==', '>': '<', '>=': '<=', '<': '>', '<=': '>=' };
// How tightly each binds.
const ALFA_RANKS = { '||': 1, '&&': 2, '==': 3, '>': 3, '>=': 3, '<': 3, '<=': 3, '+': 4, '-': 4, '*': 5, '/': 5,
  '%': 5 };
const ALFA_SINGLE = 6;
const ALFA_CHAINS = { and: '&&', or: '||' };
const ALFA_RECKONED = { 'integer-add': '+', 'integer-subtract': '-', 'integer-multiply': '*', 'integer-divide': '/',
  'integer-mod': '%', 'string-concatenate': '+', 'date-add-yearMonthDuration': '+',
  'date-subtract-yearMonthDuration': '-' };
const ALFA_VERSIONS = [['Version', 'version'], ['EarliestVersion', 'earliest'], ['LatestVersion', 'latest']];

// A text in quotes.
function alfaQuoted(text) {
  return `"${text.replace(/[\\"\r\n]/g, '\\$&')}"`;
}

// A literal.
function alfaLiteral(inner) {
  const kind = alfaLiteralKind(inner), value = inner.Value;
  if (kind === 'boolean') return [true, 'true', '1'].includes(value) ? 'true' : 'false';
  if (kind === 'integer') return String(BigInt(value));
  return kind === 'string' ? alfaQuoted(value) : `${alfaQuoted(value)}:${kind}`;
}

// The sign by which a function compares, if it does.
function alfaCompared(uri) {
  const name = alfaLast(uri), kind = name.split('-')[0];
  return kind === 'yearMonthDuration' ? undefined : ALFA_ORDERS.get(name.slice(kind.length + 1));
}

// How many letters a line has.
function alfaLength(line) {
  return [...line].length;
}

// Writes some documents, which are prepared, as one file.
class AlfaWriter {
  constructor(documents, namespace = 'policies') {
    this.documents = documents.map(alfaPrepared);
    this.namespace = namespace;
    this.names = new AlfaNames(this.documents);
    this.places = new Map();
    this.elsewhere = new Map();
    this.taken = new Map();
    this.named = this.documents.map((each) => this.place(each));
    this.documents.forEach((each) => this.refer(each));
  }

  // ---- expressions

  // A whole expression.
  expression(json) {
    return this.ranked(json)[0];
  }

  // An expression that stands where one has to bind so tightly.
  within(json, least) {
    const [text, rank] = this.ranked(json);
    return rank >= least ? text : `(${text})`;
  }

  // An expression, and how tightly it binds.
  ranked(json) {
    const [key, inner] = alfaOnly(json);
    if (key === 'AttributeValue') return [alfaLiteral(inner), ALFA_SINGLE];
    if (key === 'AttributeDesignator') return [this.designator(inner), ALFA_SINGLE];
    if (key === 'Function') return [`function[${alfaCamel(inner.FunctionId)}]`, ALFA_SINGLE];
    return this.apply(inner.FunctionId, inner.Arguments ?? []);
  }

  // An attribute.
  designator(inner) {
    const more = inner.MustBePresent ? ['mustbepresent'] : [];
    if (inner.Issuer !== undefined) more.push(`issuer = ${alfaQuoted(inner.Issuer)}`);
    return this.names.asked(inner) + (more.length ? `[${more.join(' ')}]` : '');
  }

  // A function of arguments: by its sign where it has one, else by its name.
  apply(uri, parts) {
    const name = alfaLast(uri), chain = ALFA_CHAINS[name];
    if (chain && parts.length > 1) {
      const rank = ALFA_RANKS[chain];
      return [parts.map((each) => this.within(each, rank + 1)).join(` ${chain} `), rank];
    }
    const sign = alfaCompared(uri) ?? ALFA_RECKONED[name];
    if (parts.length === 2 && sign) return this.between(sign, parts);
    const isMembers = name.endsWith('-at-least-one-member-of');
    if (parts.length === 2 && isMembers && parts.every((each) => each.AttributeDesignator)) {
      return this.between('==', parts);
    }
    const inner = name === 'any-of' && parts.length === 3 && parts[0].Function?.FunctionId;
    if (inner && alfaCompared(inner)) return this.between(alfaCompared(inner), parts.slice(1));
    return [`${alfaCamel(uri)}(${parts.map((each) => this.expression(each)).join(', ')})`, ALFA_SINGLE];
  }

  // Two expressions with a sign between them, from left to right where there are several.
  between(sign, [left, right]) {
    const rank = ALFA_RANKS[sign];
    return [`${this.within(left, rank === 3 ? 4 : rank)} ${sign} ${this.within(right, rank + 1)}`, rank];
  }

  // ---- where each document stands

  // The namespace and the name of a document, and whether its id has to be said.
  place(document) {
    const [kind, body] = alfaOnly(document), identifier = body[`${kind}Id`];
    const words = identifier.split('.');
    let space = words.slice(0, -1).join('.'), name = words[words.length - 1], isSaid = false;
    if (words.length < 2 || !words.every(alfaIsName) || this.takenIn(space).has(name)) {
      [space, name, isSaid] = [this.namespace, alfaName(identifier, 'policy'), true];
    }
    name = alfaUnique(name, this.takenIn(space));
    const key = JSON.stringify([kind, identifier]);
    if (!this.places.has(key)) this.places.set(key, [space, name]);
    return [space, name, isSaid];
  }

  // The names that are taken in a namespace.
  takenIn(space) {
    if (!this.taken.has(space)) this.taken.set(space, new Set());
    return this.taken.get(space);
  }

  // Notes documents that are referred to and stand elsewhere, each with a name of its own.
  refer(json) {
    const [kind, body] = alfaOnly(json);
    if (kind.endsWith('Reference')) {
      const key = JSON.stringify([kind.replace('IdReference', ''), body.Id]);
      if (this.places.has(key)) return;
      const name = alfaUnique(alfaName(body.Id, 'policy'), this.takenIn(this.namespace));
      this.places.set(key, [this.namespace, name]);
      this.elsewhere.set(key, name);
    } else if (kind === 'PolicySet') {
      (body.Children ?? []).forEach((child) => this.refer(child));
    }
  }

  // ---- the file

  // The whole file.
  text() {
    const lines = this.declarations();
    const spaces = new Set(this.named.map(([space]) => space));
    if (this.elsewhere.size) spaces.add(this.namespace);
    for (const space of spaces) {
      lines.push('', `namespace ${space} {`, `${ALFA_STEP}import ${ALFA_DECLARED}.*`);
      for (const [key, name] of space === this.namespace ? this.elsewhere : []) {
        const [kind, identifier] = JSON.parse(key);
        lines.push('', `${ALFA_STEP}${kind.toLowerCase()} ${name} = ${alfaQuoted(identifier)}`);
      }
      this.documents.forEach((document, number) => {
        const [own, name, isSaid] = this.named[number];
        const whole = `${space}.${name}`;
        if (own === space) lines.push('', ...this.document(document, space, whole, name, isSaid, ALFA_STEP));
      });
      lines.push('}');
    }
    return `${lines.join('\n')}\n`;
  }

  // The namespace of attributes, obligations and advice.
  declarations() {
    const lines = [`namespace ${ALFA_DECLARED} {`, `${ALFA_STEP}import System.*`], { names } = this;
    for (const [uri, name] of names.categories) {
      if (!ALFA_CATEGORIES.has(uri)) lines.push(`${ALFA_STEP}category ${name} = ${alfaQuoted(uri)}`);
    }
    for (const [key, name] of names.attributes) {
      const [category, identifier, kind] = names.keys.get(key);
      const inner = `category = ${names.categories.get(category)}  id = ${alfaQuoted(identifier)}  type = ${kind}`;
      lines.push(`${ALFA_STEP}attribute ${name} { ${inner} }`);
    }
    for (const [kind, ids] of Object.entries(names.ids)) {
      for (const [uri, name] of ids) lines.push(`${ALFA_STEP}${kind} ${name} = ${alfaQuoted(uri)}`);
    }
    return [...lines, '}'];
  }

  // A policy or a set; a whole name stands for what its members' ids begin with.
  document(json, space, whole, name, isSaid, indent) {
    const [kind, body] = alfaOnly(json), inner = indent + ALFA_STEP;
    const head = kind.toLowerCase() + (name ? ` ${name}` : '') + (isSaid ? ` = ${alfaQuoted(body[`${kind}Id`])}` : '');
    const version = body.Version === '1.0' ? undefined : body.Version;
    const lines = [...this.comment(body.Description, [['version', version]], indent), `${indent}${head} {`];
    lines.push(...this.target(body, inner));
    lines.push(`${inner}apply ${alfaCamel(body.PolicyCombiningAlgId ?? body.RuleCombiningAlgId)}`);
    const taken = new Set();
    (body.Rule ?? []).forEach((rule, number) => {
      lines.push(...this.rule(rule, this.innerName(rule.RuleId, whole, number + 1, taken, 'rule'), inner));
    });
    (body.Children ?? []).forEach((child, number) => {
      lines.push(...this.child(child, space, whole, number + 1, taken, inner));
    });
    return [...lines, ...this.given(body, inner), `${indent}}`];
  }

  // The name of something inside, and whether its id has to be said.
  innerName(identifier, whole, number, taken, otherwise) {
    const last = identifier.startsWith(`${whole}.`) ? identifier.slice(whole.length + 1) : identifier;
    if (last !== identifier && alfaIsName(last) && !taken.has(last)) return [alfaUnique(last, taken), false];
    if (identifier === `${whole}.${number}`) return ['', false];
    return [alfaUnique(alfaName(identifier, otherwise), taken), true];
  }

  // A member of a set.
  child(json, space, whole, number, taken, indent) {
    const [kind, body] = alfaOnly(json);
    if (kind === 'Policy' || kind === 'PolicySet') {
      const [name, isSaid] = this.innerName(body[`${kind}Id`], whole, number, taken, 'policy');
      return this.document(json, space, `${whole}.${name || number}`, name, isSaid, indent);
    }
    const [own, name] = this.places.get(JSON.stringify([kind.replace('IdReference', ''), body.Id]));
    const tags = ALFA_VERSIONS.map(([key, tag]) => [tag, body[key]]);
    return [...this.comment(undefined, tags, indent), `${indent}${own === space ? name : `${own}.${name}`}`];
  }

  // A description, and what is said by tags.
  comment(text, tags, indent) {
    const lines = text ? text.split('\n') : [];
    for (const [tag, value] of tags) if (value !== undefined) lines.push(`@${tag} ${value}`);
    if (!lines.length) return [];
    if (lines.length === 1 && !/^[*@]/.test(text ?? '')) return [`${indent}/** ${lines[0]} */`];
    return [`${indent}/**`, ...lines.map((line) => `${indent} * ${line}`.replace(/[ \t]+$/, '')), `${indent} */`];
  }

  // ---- rules

  // A rule.
  rule(rule, [name, isSaid], indent) {
    const head = `rule${name ? ` ${name}` : ''}${isSaid ? ` = ${alfaQuoted(rule.RuleId)}` : ''}`;
    const inner = indent + ALFA_STEP;
    const body = [`${inner}${rule.Effect.toLowerCase()}`, ...this.target(rule, inner), ...this.condition(rule, inner),
      ...this.given(rule, inner)];
    const comment = this.comment(rule.Description, [], indent);
    if (body.length === 1) return [...comment, `${indent}${head} { ${body[0].trim()} }`];
    return [...comment, `${indent}${head} {`, ...body, `${indent}}`];
  }

  // A condition, a long one in several lines.
  condition(rule, indent) {
    if (!rule.Condition) return [];
    const line = `${indent}condition ${this.expression(rule.Condition)}`;
    const sign = ALFA_CHAINS[alfaLast(rule.Condition.Apply?.FunctionId ?? '')];
    const parts = rule.Condition.Apply?.Arguments ?? [];
    if (alfaLength(line) <= ALFA_WIDTH || !sign || parts.length < 2) return [line];
    const texts = parts.map((each) => this.within(each, ALFA_RANKS[sign] + 1));
    return [`${indent}condition ${texts[0]}`, ...texts.slice(1).map((each) => `${indent}${ALFA_STEP}${sign} ${each}`)];
  }

  // A target, each clause in a line, a long one in several.
  target(body, indent) {
    const lines = [];
    for (const anyOf of body.Target?.AnyOf ?? []) {
      const parts = anyOf.AllOf.map((allOf) => allOf.Match.map((match) => this.match(match)).join(' and '));
      const head = `${indent}${lines.length ? '       ' : 'target '}clause `, line = head + parts.join(' or ');
      if (alfaLength(line) <= ALFA_WIDTH) {
        lines.push(line);
      } else {
        lines.push(head + parts[0], ...parts.slice(1).map((part) => `${indent}${ALFA_STEP}${ALFA_STEP}or ${part}`));
      }
    }
    return lines;
  }

  // A match: the attribute stands at the left, so the sign is turned.
  match(match) {
    const attribute = this.designator(match.AttributeDesignator), value = alfaLiteral(match.AttributeValue);
    const sign = alfaCompared(match.MatchId);
    return sign ? `${attribute} ${ALFA_TURNED[sign]} ${value}` : `${alfaCamel(match.MatchId)}(${value}, ${attribute})`;
  }

  // Obligations, then advice, those that stand behind each other and are for one effect together.
  given(body, indent) {
    const lines = [];
    let last;
    for (const [kind, key, name, on] of ALFA_GIVEN) {
      for (const each of body[key] ?? []) {
        if (each[on] !== last) {
          if (last !== undefined) lines.push(`${indent}}`);
          lines.push(`${indent}on ${each[on].toLowerCase()} {`);
          last = each[on];
        }
        lines.push(...this.one(kind, this.names.ids[kind].get(each[name]), each, indent + ALFA_STEP));
      }
    }
    return lines.length ? [...lines, `${indent}}`] : [];
  }

  // An obligation or an advice.
  one(kind, name, given, indent) {
    const assigned = (given.AttributeAssignmentExpression ?? []).map((each) => (
      `${this.names.assigned(each)} = ${this.expression(each.Expression)}`));
    if (!assigned.length) return [`${indent}${kind} ${name}`];
    const line = `${indent}${kind} ${name} { ${assigned.join('  ')} }`;
    if (alfaLength(line) <= ALFA_WIDTH) return [line];
    return [`${indent}${kind} ${name} {`, ...assigned.map((each) => `${indent}${ALFA_STEP}${each}`), `${indent}}`];
  }
}

// Documents as one file of ALFA; AlfaUnsayable is thrown where one can't be said.
function alfaOf(documents) {
  return new AlfaWriter(documents).text();
}

// One rule of a policy as ALFA, without what is declared around it; null where the policy has none of that id.
function alfaOfRule(document, identifier) {
  const writer = new AlfaWriter([document]), [, body] = alfaOnly(writer.documents[0]);
  const rule = (body.Rule ?? []).find((each) => each.RuleId === identifier);
  return rule ? `${writer.rule(rule, [alfaName(identifier, 'rule'), true], '').join('\n')}\n` : null;
}
