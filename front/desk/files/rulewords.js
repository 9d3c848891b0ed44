// A stored rule in words that a reader of no XACML can follow: "person's role is doctor or nurse". What isn't known
// here is
// shown as function(..), never left out.
import { el, tail, shown } from './words.js';

const WHOSE = /** @type {Record<string, string>} */ ({
  'access-subject': 'person’s ', resource: 'resource’s ', action: 'action’s ', environment: '',
});
const SIGNS = /** @type {Record<string, string>} */ ({
  equal: 'is', 'greater-than': '>', 'greater-than-or-equal': '≥', 'less-than': '<', 'less-than-or-equal': '≤',
  add: '+', subtract: '−', multiply: '×', divide: '÷',
});
const IDS = /** @type {Record<string, string>} */ ({
  'action-id': 'action', 'resource-id': 'resource', 'subject-id': 'person', 'current-date': 'today',
  'current-dateTime': 'now', 'current-time': 'the time',
});
const NAMED = Object.keys(SIGNS).sort((a, b) => b.length - a.length);

/** @typedef {Map<string, any>} Variables */

/** @param {any} given */
function designator(given) {
  const id = tail(given.AttributeId);
  const words = IDS[id] ?? `${WHOSE[tail(given.Category)] ?? `${tail(given.Category)}’s `}${id}`;
  return `${words}${given.Issuer ? ` (said by ${given.Issuer})` : ''}`;
}

/**
 * The sign of a function of two: its name without its type.
 * @param {string} id
 */
function sign(id) {
  const name = tail(id), known = NAMED.find((end) => name.endsWith(`-${end}`));
  return known ? SIGNS[known] : null;
}

/** @param {any[]} parts @param {string} between */
const joined = (parts, between) => parts.flatMap((part, i) => (i ? [between, part] : [part]));

/** @param {any} value */
const literal = (value) => el('code', {}, shown(typeof value === 'object' ? JSON.stringify(value) : value));

/**
 * An application of a function.
 * @param {any} inner @param {Variables} variables @returns {any}
 */
function application(inner, variables) {
  const name = tail(inner.FunctionId), given = inner.Arguments ?? [];
  const parts = given.map((/** @type {any} */ each) => expression(each, variables));
  if (name.endsWith('one-and-only') && parts.length === 1) return parts[0];
  if (name === 'and' || name === 'or') {
    return el('span', {}, name === 'and' ? 'all of' : 'one of',
      el('ul', {}, parts.map((/** @type {any} */ part) => el('li', {}, part))));
  }
  if (name === 'not') return el('span', {}, 'not: ', parts);
  const bag = tail(given[1]?.Apply?.FunctionId ?? '');
  if (name.endsWith('at-least-one-member-of') && bag.endsWith('-bag')) {
    const words = (given[1].Apply.Arguments ?? []).map((/** @type {any} */ each) => expression(each, variables));
    return el('span', {}, parts[0], ' is ', joined(words, ' or '));
  }
  if (name.endsWith('at-least-one-member-of')) return el('span', {}, parts[0], ' shares a value with ', parts[1]);
  if (name.endsWith('-is-in')) return el('span', {}, parts[1], ' has ', parts[0]);
  if (name.endsWith('-bag')) return el('span', {}, '{', joined(parts, ', '), '}');
  const between = sign(inner.FunctionId);
  if (between && parts.length === 2) return el('span', {}, parts[0], ` ${between} `, parts[1]);
  return el('span', {}, `${name}(`, joined(parts, ', '), ')');
}

/**
 * An expression in words.
 * @param {any} given @param {Variables} variables @returns {any}
 */
export function expression(given, variables) {
  const [kind, inner] = Object.entries(given ?? {})[0] ?? ['nothing', null];
  if (kind === 'AttributeValue') return literal(inner.Value);
  if (kind === 'AttributeDesignator') return el('var', {}, shown(designator(inner)));
  if (kind === 'VariableReference') {
    const found = variables.get(inner.VariableId);
    if (!found || ['and', 'or'].includes(tail(found.Apply?.FunctionId ?? ''))) return el('var', {},
      shown(inner.VariableId));
    return expression(found, variables);
  }
  if (kind === 'Function') return el('var', {}, tail(inner.FunctionId));
  return kind === 'Apply' ? application(inner, variables) : el('var', {}, `${kind}(${shown(JSON.stringify(inner))})`);
}

/**
 * A match of a target.
 * @param {any} match
 */
function matching(match) {
  const of = match.AttributeDesignator ? designator(match.AttributeDesignator)
    : `selected ${match.AttributeSelector?.Path ?? ''}`;
  return [el('var', {}, shown(of)), ` ${sign(match.MatchId) ?? tail(match.MatchId)} `,
    literal(match.AttributeValue.Value)];
}

/**
 * Matches of one attribute by one function, joined; null where they aren't.
 * @param {any[]} all
 */
function alternatives(all) {
  const single = all.map(({ Match: match }) => match[0]), [first] = single;
  const isSame = all.length > 1 && first.AttributeDesignator && sign(first.MatchId) && all.every(({ Match: match }) =>
    match.length === 1 && match[0].MatchId === first.MatchId
    && JSON.stringify(match[0].AttributeDesignator) === JSON.stringify(first.AttributeDesignator));
  if (!isSame) return null;
  return el('span', {}, el('var', {}, shown(designator(first.AttributeDesignator))), ` ${sign(first.MatchId)} `,
    joined(single.map((match) => literal(match.AttributeValue.Value)), ' or '));
}

/**
 * A target as parts that all have to hold.
 * @param {any} given @returns {any[]}
 */
export const target = (given) => (given?.AnyOf ?? []).map((/** @type {any} */ any) => {
  const joint = alternatives(any.AllOf);
  if (joint) return joint;
  const all = any.AllOf.map((/** @type {any} */ each) => el('span', {}, joined(each.Match.map(matching), ' and ')));
  return all.length === 1 ? all[0]
    : el('span', {}, 'one of', el('ul', {}, all.map((/** @type {any} */ each) => el('li', {}, each))));
});

/**
 * The rule with an id within a document, with the variables and targets that it stands under.
 * @param {any} node @param {string} id @param {string} [holder] @param {any[]} [above] @param {Variables} [known]
 * @returns {{rule: any, targets: any[], known: Variables, policy: any} | null}
 */
export function find(node, id, holder = '', above = [], known = new Map()) {
  const inner = node?.Policy ?? node?.PolicySet;
  if (!inner) return null;
  const targets = [...above, inner.Target], variables = new Map(known);
  for (const each of inner.VariableDefinition ?? []) variables.set(each.VariableId, each.Expression);
  const isHolder = !holder || inner.PolicyId === holder;
  const rule = isHolder && (inner.Rule ?? []).find((/** @type {any} */ each) => each.RuleId === id);
  if (rule) return { rule, targets, known: variables, policy: inner };
  for (const child of inner.Children ?? []) {
    const found = find(child, id, holder, targets, variables);
    if (found) return found;
  }
  return null;
}

/**
 * What a rule needs, as a list.
 * @param {any} rule @param {any[]} targets @param {Variables} known
 */
export function needs(rule, targets, known) {
  const all = [...targets, rule.Target].flatMap(target);
  if (rule.Condition) {
    const given = rule.Condition.Expression ?? rule.Condition;
    const inner = given.VariableReference ? known.get(given.VariableReference.VariableId) ?? given : given;
    const isAll = tail(inner.Apply?.FunctionId ?? '') === 'and';
    all.push(...(isAll ? inner.Apply.Arguments : [inner]).map((/** @type {any} */ each) => expression(each, known)));
  }
  return all;
}

/**
 * A rule in words, with its stored text folded below.
 * @param {any} rule @param {any[]} targets @param {Variables} known @param {string} algorithm
 */
export function ruleText(rule, targets, known, algorithm) {
  const all = needs(rule, targets, known), effect = rule.Effect === 'Permit' ? 'permits' : 'denies';
  return el('div.rule', {},
    el('p', {}, `This rule ${effect} `, all.length ? 'when all of this holds:' : 'whatever is asked.'),
    all.length ? el('ul', {}, all.map((each) => el('li', {}, each))) : null,
    algorithm ? el('p.quiet', {}, `Its policy joins rules by ${tail(algorithm)}.`) : null,
    el('details', {}, el('summary', {}, 'As stored'), el('pre', {}, shownLines(JSON.stringify(rule, null, 1)))));
}

/**
 * A text of several lines, of which each is as a reader can tell it.
 * @param {string} text
 */
export const shownLines = (text) => text.split('\n').map((line) => {
  const inner = line.trimStart();
  return ' '.repeat(line.length - inner.length) + shown(inner);
}).join('\n');

/**
 * A rule of a document in words.
 * @param {any} document @param {string} id @param {string} holder
 */
export function ruleWords(document, id, holder) {
  const found = find(document, id, holder) ?? find(document, id);
  if (!found) return el('p.quiet', {}, 'The document that stands now has no such rule.');
  return ruleText(found.rule, found.targets, found.known, found.policy.RuleCombiningAlgId);
}
