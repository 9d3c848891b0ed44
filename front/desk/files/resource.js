// A resource: what is known of it, and all who may, by the rule that lets them.
import { attributes, grants, totals } from './front.js';
import { listsAt, may } from './state.js';
import { address, el, few, link, name, number, plural, tableOf } from './words.js';
import { asOf, bar, choosing, printing } from './bar.js';
import { entryKey, gathered } from './made.js';
import { pathWords } from './cell.js';
import { knownOf, rulesOf } from './known.js';
import { who } from './called.js';

export const title = 'Resource', needs = ['names'];

let resource = '', at = '';
/** @type {{entries: Entry[], actions: string[], people: string[], cells: number}[]} */
let given = [];

const HEADS = ['Rule', 'Actions', 'People', '#People', '#Cells'];

/**
 * People who may the same by the same rules, joined.
 * @param {Grant[]} all
 */
const joined = (all) => gathered(all, (grant) => JSON.stringify([grant.entries.map(entryKey), grant.actions])).map(
  (group) => ({
  entries: group[0].entries, actions: group[0].actions, people: group.map(({ person }) => person),
  cells: group.reduce((sum, { cells }) => sum + cells, 0),
}));

/** @param {typeof given[0]} group */
const row = (group) => [rulesOf(group.entries, at),
  few(group.actions, (action) => link('table', { action, find: resource, at }, name(action))),
  few(group.people, (person) => link('person', { person, at }, who(person))), number(group.people.length),
    number(group.cells)];

/** @param {HTMLElement} place @param {URLSearchParams} query @param {() => boolean} isOpen */
export async function show(place, query, isOpen) {
  at = query.get('at') ?? '';
  const lists = await listsAt(at);
  resource = query.get('resource') ?? lists.resources[0] ?? '';
  const top = bar(choosing('Resource', resource, lists.resources,
    (chosen) => { location.hash = address('resource', { resource: chosen, at }); }),
    asOf(at, (day) => { location.hash = address('resource', { resource, at: day }); }), printing());
  const then = at ? [el('p.then', {}, `As it was on ${at}.`)] : [], known = lists.places.resources.get(resource);
  given = [];
  if (known === undefined) {
    place.replaceChildren(top, ...then, el('p.empty', {}, 'Nothing is listed by that name.'));
    return;
  }
  const part = { resources: { at: [known] } };
  const [all, counted, facts] = await Promise.all([grants(part, at), totals(part, at), attributes('Resource', resource,
    at)]);
  if (!isOpen()) return;
  given = joined(all).sort((a, b) => b.people.length - a.people.length);
  const people = new Set(all.map(({ person }) => person)), [permit, deny, none, fault] = counted.totals.resources[0];
  place.replaceChildren(top, ...then, el('div.page', {}, el('h1', {}, name(resource)),
    el('p.lead', { role: 'status' }, `${plural(people.size, 'person', 'people')} may do something to it: ${plural(
      permit, 'Permit')}. Denied ${
      number(deny)}; no rule speaks of ${number(none)}; without an answer ${number(fault)}.`),
    el('p', {}, link('table', { action: lists.actions[0], find: resource, at }, 'In the table'),
      may('changes') ? [' · ', link('changes', { entity: resource }, 'Edits of this resource')] : null),
    el('h2', {}, 'What is known of this resource'), knownOf('resources', resource, facts),
    el('h2', {}, 'Who may, by the rule that lets them'),
    given.length ? tableOf(HEADS, given.map(row), 'Who may') : el('p.quiet', {}, 'Nobody.')));
}

/** @returns {Sheet} */
export const sheet = () => ({
  title: `Who may do something to ${resource}`, filter: at ? [`as it was on ${at}`] : [], heads: HEADS,
  rows: given.map((group) => [group.entries.map((entry) => `${pathWords(entry)} › ${entry.rule ?? 'by default'}`).join(
    '; '),
    group.actions.join(', '), group.people.join(', '), group.people.length, group.cells]),
});

let wait = 0;

/** @param {Change[]} changes */
export function told(changes) {
  if (at || !changes.some((each) => each.resource === resource)) return;
  clearTimeout(wait);
  wait = window.setTimeout(() => window.dispatchEvent(new HashChangeEvent('hashchange')), 300);
}
