// Documents: which are stored, and each as a tree with its rules in words. Rules that never decide are marked.
import { documents, rules } from './front.js';
import { el, link, name, number, plural, tableOf, tail } from './words.js';
import { asOf, bar, printing } from './bar.js';
import { gathered, holderOf } from './made.js';
import { ruleText, shownLines, target } from './rulewords.js';

export const title = 'Document', needs = ['documents'];

let id = '', at = '';
/** @type {(string | number)[][]} */
let rows = [];
/** @type {string[]} */
let heads = [];

/**
 * How many cells each rule decides, by what it stands in and its id.
 * @param {Rule[]} all
 */
const countsOf = (all) => new Map(gathered(all, (rule) => JSON.stringify([holderOf(rule), rule.rule])).map((group) =>
  [JSON.stringify([holderOf(group[0]), group[0].rule]), group.reduce((sum, rule) => sum + rule.cells, 0)]));

/** @typedef {Map<string, number>} Deciding */

/**
 * How often a rule decides, in words; nothing where it isn't reached.
 * @param {Deciding} counts @param {string} policy @param {string | null} rule
 */
function often(counts, policy, rule) {
  const cells = counts.get(JSON.stringify([policy, rule]));
  if (cells === undefined) return null;
  return cells ? el('span.quiet', {}, ` ${plural(cells, 'cell')}`) : [' ', el('span.tag', {}, 'never decides')];
}

/**
 * @param {any} inner @param {string} policy @param {Deciding} counts @param {any[]} targets @param {Map<string, any>}
 * known
 */
const rulesOf = (inner, policy, counts, targets, known) => (inner.Rule ?? []).map((/** @type {any} */ rule) => {
  rows.push([policy, rule.RuleId, rule.Effect, counts.get(JSON.stringify([policy, rule.RuleId])) ?? 'not reached']);
  return el('details', {}, el('summary', {}, el('b', {}, name(rule.RuleId)), ` (${rule.Effect})`,
    often(counts, policy, rule.RuleId)), link('rule', { policy, rule: rule.RuleId, at }, 'What it decided'),
  ruleText(rule, targets, known, ''));
});

/**
 * A child that refers to another document.
 * @param {any} child
 */
function referring(child) {
  const [reference] = Object.values(child);
  return el('p', {}, 'refers to ', link('document', { id: reference.Id, at }, name(reference.Id)),
    reference.Version ? ` ${reference.Version}` : null);
}

/**
 * A policy or a set as a tree.
 * @param {any} node @param {Deciding} counts @param {boolean} isOpen @param {Map<string, any>} above @returns {any}
 */
function tree(node, counts, isOpen, above) {
  const inner = node.Policy ?? node.PolicySet;
  if (!inner) return referring(node);
  const policy = inner.PolicyId ?? inner.PolicySetId, needs = target(inner.Target), known = new Map(above);
  for (const each of inner.VariableDefinition ?? []) known.set(each.VariableId, each.Expression);
  const own = rulesOf(inner, policy, counts, [], known);
  const children = (inner.Children ?? []).map((/** @type {any} */ child) => tree(child, counts, true, known));
  return el('details', { open: isOpen },
    el('summary', {}, el('b', {}, name(policy)),
      el('span.quiet', {}, ` ${node.Policy ? 'policy' : 'set'} ${inner.Version}, joined by ${
      tail(inner.RuleCombiningAlgId ?? inner.PolicyCombiningAlgId)}`), often(counts, policy, null)),
    inner.Description ? el('p.quiet', {}, name(inner.Description)) : null,
    needs.length ? el('div.rule', {}, el('p', {}, 'It applies when all of this holds:'),
      el('ul', {}, needs.map((each) => el('li', {}, each)))) : null,
    own, children);
}

/** @param {Stored[]} all @param {Deciding} counts */
function drawOne(all, counts) {
  heads = ['Policy', 'Rule', 'Effect', '#Cells'];
  return el('div.page', {}, el('h1', {}, name(id)), all.map((stored) => el('section', {},
    el('p.lead', {}, `Version ${stored.version}, in module ${number(stored.module)}. `, stored.reached
      ? 'The root leads to it.'
      : 'The root doesn’t lead to it: it has no part in any answer.'),
    el('div.tree', {}, tree(stored.document, stored.reached ? counts : new Map(), true, new Map())),
    el('details', {}, el('summary', {}, 'As stored'),
      el('pre', {}, shownLines(JSON.stringify(stored.document, null, 1)))))),
  el('p', {}, link('document', { at }, 'All documents')));
}

/** @param {Stored[]} all @param {Rule[]} rulesAll */
function drawAll(all, rulesAll) {
  heads = ['Document', 'Kind', 'Version', '#Module', 'Reached', '#Rules', '#Never decide'];
  rows = all.map((stored) => {
    const own = stored.reached ? rulesAll.filter((rule) => rule.path.some(([, of, version]) => of === stored.id
      && version === stored.version)) : [];
    const idle = own.filter((rule) => rule.rule !== null && rule.cells === 0).length;
    return [stored.id, stored.kind === 'Policy' ? 'policy' : 'set', stored.version, stored.module, stored.reached
      ? 'yes' : 'no',
      own.filter((rule) => rule.rule !== null).length, idle];
  });
  return el('div.page', {}, el('h1', {}, 'Documents'),
    el('p.lead', {}, `${plural(all.length, 'document')} are stored; the root leads to ${
    number(all.filter((each) => each.reached).length)} of them.`),
  tableOf(heads, rows.map(([of, ...rest]) => [link('document', { id: of, at }, name(of)), ...rest.map(String)]),
    'Documents'));
}

/** @param {HTMLElement} place @param {URLSearchParams} query @param {() => boolean} isOpen */
export async function show(place, query, isOpen) {
  [id, at, rows] = [query.get('id') ?? '', query.get('at') ?? '', []];
  const [all, rulesAll] = await Promise.all([documents(id, at), rules(at)]);
  if (!isOpen()) return;
  const drawn = id ? drawOne(all, countsOf(rulesAll)) : drawAll(all, rulesAll);
  place.replaceChildren(bar(asOf(at, (day) => {
    location.hash = `#document?${new URLSearchParams({ ...(id && { id }), at: day })}`;
  }), printing()), ...(at ? [el('p.then', {}, `As it was on ${at}.`)] : []),
  all.length ? drawn : el('p.empty', {}, 'No document of that id is stored.'));
}

/** @returns {Sheet} */
export const sheet = () => ({ title: id ? `The rules of ${id}` : 'Documents', filter: at ? [`as it was on ${at}`] : [],
  heads, rows });
