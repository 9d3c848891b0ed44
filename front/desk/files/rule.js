// A rule: its text in words, and all that it decided.
import { byRule, documents, rules } from './front.js';
import { address, el, few, link, name, number, plural, tableOf } from './words.js';
import { asOf, bar, labelled, printing } from './bar.js';
import { gathered, holderOf } from './made.js';
import { pathWords } from './cell.js';
import { find, ruleText } from './rulewords.js';
import { who } from './called.js';

export const title = 'Rule', needs = ['by_rule'];

let policy = '', at = '';
/** @type {string | null} */
let rule = null;
/** @type {{action: string, resources: string[], people: string[], cells: number}[]} */
let groups = [];

const HEADS = ['Action', 'People', 'Resources', '#Cells'];

/**
 * Cells joined twice: the resources of a person and an action, then the people who have the same.
 * @param {{person: string, action: string, resource: string}[]} cells
 */
function joined(cells) {
  const each = gathered(cells, ({ person, action }) => JSON.stringify([person, action])).map((group) =>
    ({ ...group[0], resources: group.map(({ resource }) => resource) }));
  return gathered(each, ({ action, resources }) => JSON.stringify([action, resources])).map((group) => ({
    action: group[0].action, resources: group[0].resources, people: group.map(({ person }) => person),
    cells: group.length * group[0].resources.length,
  })).sort((a, b) => b.cells - a.cells);
}

/** @param {typeof groups[0]} group */
const row = (group) => [name(group.action),
  few(group.people, (person) => link('person', { person, at }, who(person))),
  few(group.resources, (resource) => (group.people.length === 1
    ? link('table', { action: group.action, find: group.people[0], person: group.people[0], resource, at },
      name(resource))
    : link('resource', { resource, at }, name(resource)))), number(group.cells)];

/** The text of the rule, in each document that is reached. */
async function text() {
  if (rule === null) return el('p', {}, 'A default decides where no rule or child of this element gave that decision.');
  const all = (await documents('', at)).filter((each) => each.reached), ids = [...new Set(all.map(({ id }) => id))];
  for (const id of [policy, ...ids.filter((each) => each !== policy)]) {
    for (const stored of await documents(id, at)) {
      const found = stored.document && find(stored.document, rule, policy);
      if (found) return ruleText(found.rule, found.targets, found.known, found.policy.RuleCombiningAlgId);
    }
  }
  return el('p.quiet', {}, 'No stored document has such a rule.');
}

/** @param {Rule[]} all */
function chooser(all) {
  const keys = new Map(all.map((each) => [JSON.stringify([holderOf(each), each.rule]), each]));
  const options = [...keys].map(([key, each]) => ({ key, words: `${holderOf(each)}: ${each.rule ?? '(by default)'}` }))
    .sort((a, b) => (a.words < b.words ? -1 : 1)), chosen = JSON.stringify([policy, rule]);
  return labelled('Rule', el('select', { name: 'rule', id: 'find', onchange: (/** @type {any} */ event) => {
    const [of, id] = JSON.parse(event.target.value);
    location.hash = address('rule', { policy: of, rule: id, default: id === null ? '1' : '', at });
  } }, options.map(({ key, words }) => el('option', { value: key, selected: key === chosen }, name(words)))));
}

/** @param {HTMLElement} place @param {URLSearchParams} query @param {() => boolean} isOpen */
export async function show(place, query, isOpen) {
  at = query.get('at') ?? '';
  const all = await rules(at);
  [policy, rule] = query.has('policy') ? [query.get('policy') ?? '', query.get('default') ? null
    : query.get('rule') ?? '']
    : [all[0] ? holderOf(all[0]) : '', all[0]?.rule ?? null];
  const here = all.filter((each) => holderOf(each) === policy && each.rule === rule);
  const [cells, words] = await Promise.all([byRule(policy, rule, at), text()]);
  if (!isOpen()) return;
  groups = joined(cells);
  const sum = (/** @type {'cells' | 'permits'} */ key) => here.reduce((count, each) => count + each[key], 0);
  const told = sum('cells') === 0 ? 'Never decides: no cell of the table has its decision by it.'
    : `Decides ${plural(sum('cells'), 'cell')}, of which ${number(sum('permits'))} are Permit.`;
  place.replaceChildren(bar(chooser(all), asOf(at, (day) => {
    location.hash = address('rule', { policy, rule, default: rule === null ? '1' : '', at: day });
  }), printing()), ...(at ? [el('p.then', {}, `As it was on ${at}.`)] : []),
  el('div.page', {}, el('h1', {}, name(rule ?? 'By default')),
    here.map((each) => el('p.quiet', {}, name(pathWords(each)))), el('p.lead', { role: 'status' }, told), words,
    el('p', {}, link('document', { id: policy, at }, 'Its document')),
    el('h2', {}, 'What it decided'), groups.length ? tableOf(HEADS, groups.map(row), 'What it decided')
      : el('p.quiet', {}, 'Nothing.')));
}

/** @returns {Sheet} */
export const sheet = () => ({
  title: `What ${rule ?? 'the default'} of ${policy} decided`, filter: at ? [`as it was on ${at}`] : [], heads: HEADS,
  rows: groups.map((group) => [group.action, group.people.join(', '), group.resources.join(', '), group.cells]),
});
