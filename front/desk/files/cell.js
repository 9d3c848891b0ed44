// A cell in full: the decision as an answer to a question, what decided it, and what it rests on.
import { documents, explain } from './front.js';
import { changed, desk, keyOf, may } from './state.js';
import { decided, el, link, listed, name, number, plural, say, shown, tail, wordsOf } from './words.js';
import { find, ruleWords } from './rulewords.js';
import { open } from './panel.js';
import { holderOf } from './made.js';
import { who } from './called.js';

/** @param {Entry} entry */
export const pathWords = (entry) => entry.path.map(([, id, version]) => `${id} ${version}`).join(' › ');

/**
 * The stored document in which the last element of a path stands: the nearest that is stored by itself.
 * @param {Entry} entry @param {string} at
 */
async function holding(entry, at) {
  const [kind, id, version] = entry.path[entry.path.length - 1];
  for (const [, outer, of] of [...entry.path].reverse()) {
    const all = await documents(outer, at), stored = all.find((each) => each.version === of) ?? all[0];
    if (stored?.document && (outer === id || holds(stored.document, kind, id, version))) return stored.document;
  }
  return null;
}

/**
 * Whether an element is within a document.
 * @param {any} node @param {string} kind @param {string} id @param {string} version @returns {boolean}
 */
function holds(node, kind, id, version) {
  const inner = node[kind];
  if (inner && (inner.PolicyId ?? inner.PolicySetId) === id && inner.Version === version) return true;
  return ((node.PolicySet ?? {}).Children ?? []).some((/** @type {any} */ child) => holds(child, kind, id, version));
}

/**
 * The rule that decided, its path and its text.
 * @param {Entry} entry @param {string} at
 */
export async function ruleElement(entry, at) {
  const policy = holderOf(entry), outer = await holding(entry, at);
  const head = entry.rule ?? 'By default: no rule gave this';
  return el('div.why', {}, el('b', {}, link('rule', { policy, rule: entry.rule, at, default: entry.rule === null ? '1'
    : '' }, name(head))),
    el('div.quiet', {}, name(pathWords(entry))),
    entry.rule !== null && outer && (find(outer, entry.rule, policy) || find(outer, entry.rule))
      ? ruleWords(outer, entry.rule, policy) : null);
}

const WHOSE = /** @type {Record<string, string>} */ ({ 'access-subject': 'people', resource: 'resources',
  action: 'actions' });

/** @param {any} value */
const valueWords = (value) => (typeof value === 'object' ? JSON.stringify(value) : String(value));

/**
 * Where what a fact says can be tried otherwise.
 * @param {any} fact
 */
function trying(fact) {
  const list = WHOSE[tail(fact.category)];
  if (!list || !fact.entity || !may('attr.set')) return '';
  return link('try', { list, entity: fact.entity, attribute: fact.attribute, type: fact.datatype, issuer: fact.issuer,
    module: fact.module || '', values: fact.values.length ? JSON.stringify(fact.values) : '' }, 'try another');
}

/**
 * A look-up with its value.
 * @param {any} fact
 */
function factRow(fact) {
  if ('attribute' in fact) {
    const from = [fact.issuer ? `said by ${fact.issuer}` : '', fact.module_name ? `from ${fact.module_name}`
      : fact.module ? `module ${fact.module}` : ''].filter(Boolean).join(', ');
    return el('tr', {}, el('td', {}, name(tail(fact.attribute)), from ? el('span.quiet', {}, ' ', name(from)) : null),
      el('td', {}, fact.values.length ? name(listed(fact.values.map(valueWords))) : el('i', {}, 'no value')),
      el('td', {}, trying(fact)));
  }
  const key = ['date', 'time', 'dateTime'].find((each) => each in fact);
  if (!key) return null;
  return el('tr', {}, el('td', {}, key), el('td', {}, fact[key] === null ? el('i', {}, 'not known')
    : String(fact[key])),
    el('td', {}, may('day.set') ? link('try', { what: 'day', day: fact[key] ?? '' }, 'try another') : ''));
}

/**
 * Whose a fact is.
 * @param {any} fact
 */
const ownerOf = (fact) => ('attribute' in fact ? fact.entity ?? 'the surroundings' : 'the clock');

/**
 * The look-ups, by whose they are.
 * @param {any[]} facts
 */
export function factsTable(facts) {
  const rows = facts.filter((fact) => 'attribute' in fact || ['date', 'time', 'dateTime'].some((key) => key in fact));
  if (!rows.length) return el('p.quiet', {}, 'Nothing that could change: no value was looked up.');
  return el('table.facts', { 'aria-label': 'What it rests on' }, rows.flatMap((fact, i) => {
    const owner = ownerOf(fact), isNew = i === 0 || ownerOf(rows[i - 1]) !== owner;
    return [isNew ? el('tr', {}, el('th', { colspan: 3, scope: 'rowgroup' }, name(owner))) : null, factRow(fact)];
  }));
}

/**
 * A cause of an Indeterminate in a sentence.
 * @param {Cause} cause
 */
export function causeWords({ what, rule, path, status }) {
  const last = path[path.length - 1], where = rule ? `rule ${rule}` : last ? `${last[1]} ${last[2]}` : 'the root';
  if (what.missing) {
    const { attribute, issuer } = what.missing;
    return `${where} needs ${tail(attribute)}${issuer ? ` said by ${issuer}` : ''}, and there is no value.`;
  }
  if (what.fault) return `${where}: ${tail(what.function)} has no result (${String(what.fault).replaceAll('-', ' ')}).`;
  if (what.unfound) return `${where} refers to a document that isn’t there: ${valueWords(what.unfound)}.`;
  if (what.too_far) return `${where}: the seventh reference in a row isn’t followed.`;
  if (what === 'several') return `${where}: more than one policy applies where only one may.`;
  return `${where}: ${String(status).replaceAll('-', ' ')} (${valueWords(what)}).`;
}

/**
 * Obligations or advice.
 * @param {string} title @param {Given[]} list
 */
export function duties(title, list) {
  if (!list.length) return null;
  return [el('h3', {}, title), list.map((given) => el('div.why', {}, el('b', {}, name(given.Id)),
    el('table.facts', {}, given.AttributeAssignment.map((each) => el('tr', {},
      el('td', {}, name(tail(each.AttributeId))),
      el('td', {}, name(valueWords(each.Value))))))))];
}

/**
 * Why it was decided so.
 * @param {any} told @param {any[]} why
 */
function reasons({ answer, causes }, why) {
  const isFault = answer.decision.startsWith('Indeterminate');
  return [
    causes.length ? [el('h3', {}, isFault ? 'Why there is no answer' : 'Faults on the way'),
      el('ul', {}, causes.map((/** @type {Cause} */ cause) => el('li', {}, name(causeWords(cause)))))] : null,
    answer.decision === 'NotApplicable'
      ? el('p', {}, 'No rule speaks of this. Where nothing permits, an application refuses.') : null,
    why.length ? [el('h3', {}, 'Decided by'), why] : null,
  ];
}

/**
 * Documents and references that were looked up.
 * @param {any[]} facts
 */
function references(facts) {
  const found = facts.filter((fact) => 'found' in fact || 'root' in fact);
  if (!found.length) return null;
  return el('details', {}, el('summary', {}, `${plural(found.length, 'document')} and references looked up`),
    el('ul.plain', {}, found.map((fact) => el('li', {}, name('root' in fact ? `root: ${JSON.stringify(fact.root)}`
      : fact.found ? `${fact.found.id} ${fact.found.version}` : 'nothing found')))));
}

let turn = 0;

/**
 * Shows a cell at the side. What comes late, of a cell that isn't asked for any more, is dropped.
 * @param {string} person @param {string} action @param {string} resource @param {string} at @param {() => void} [then]
 */
export async function openCell(person, action, resource, at, then) {
  turn += 1;
  const now = turn, key = keyOf(person, action, resource);
  const told = await explain(person, action, resource, at).catch((/** @type {Error} */ fault) => fault);
  if (now !== turn) return;
  if (told instanceof Error) {
    open([el('h2', {}, name(person)), el('p.fault', { role: 'alert' }, `This can’t be told: ${told.message}.`)], then);
    return;
  }
  const why = await Promise.all(told.answer.why.map((/** @type {Entry} */ entry) => ruleElement(entry, at)));
  if (now !== turn) return;
  const { answer, facts, serial, more } = told, before = at ? undefined : changed.get(key);
  open([
    el('h2', { 'data-cell': key }, link('person', { person, at }, who(person)), el('span.quiet', {}, ' may '),
      name(action),
      el('span.quiet', {}, ' on '), el('span.whole', {}, link('resource', { resource, at }, name(resource)),
        el('span.quiet', {}, '?'))),
    el('p.verdict', {}, decided(answer.decision)),
    answer.status === 'ok' ? null : el('p.quiet', {}, `Status: ${answer.status.replaceAll('-', ' ')}`),
    before === undefined ? null : el('p.was', {}, 'Changed since this page was opened. Before: ',
      el('b', {}, wordsOf(before.before)), '.'),
    reasons(told, why), duties('Obligations', answer.obligations), duties('Advice', answer.advice),
    el('h3', {}, 'What it rests on'), factsTable(facts),
    more ? el('p.quiet', {}, `and ${number(more)} more look-ups`) : null, references(facts),
    el('p.foot', {},
      `As of serial ${number(serial || desk.serial)}. While each of these is the same, so is the answer.`),
  ], then);
  if (!at) changed.delete(key);
  say(shown(`${person}, ${action}, ${resource}: ${wordsOf(answer.decision)}`));
}
