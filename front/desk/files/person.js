// A person: what is known of her, and all that she may, by the rule that gives it.
import { attributes, grants, totals } from './front.js';
import { listsAt, may } from './state.js';
import { address, el, few, link, name, number, plural, tableOf } from './words.js';
import { asOf, bar, choosing, printing } from './bar.js';
import { pathWords } from './cell.js';
import { knownOf, rulesOf } from './known.js';
import { who } from './called.js';

export const title = 'Person', needs = ['names'];

let person = '', at = '';
/** @type {Grant[]} */
let given = [];

/**
 * A row of what a rule gives.
 * @param {Grant} grant
 */
const grantRow = (grant) => [rulesOf(grant.entries, at),
  few(grant.actions, (action) => link('table', { action, find: person, at }, name(action))),
  few(grant.resources, (resource) => link('resource', { resource, at }, name(resource))), number(grant.cells)];

/** @param {Counts} counts */
const sentence = ([permit, deny, none, fault]) =>
  `May do ${plural(permit, 'thing')}. Denied ${number(deny)}; no rule speaks of ${
  number(none)}; without an answer ${number(fault)}.`;

/** @param {HTMLElement} place @param {URLSearchParams} query @param {() => boolean} isOpen */
export async function show(place, query, isOpen) {
  at = query.get('at') ?? '';
  const lists = await listsAt(at);
  person = query.get('person') ?? lists.people[0] ?? '';
  const top = bar(choosing('Person', person, lists.people,
    (chosen) => { location.hash = address('person', { person: chosen, at }); }),
    asOf(at, (day) => { location.hash = address('person', { person, at: day }); }), printing());
  const then = at ? [el('p.then', {}, `As it was on ${at}.`)] : [];
  given = [];
  const place_ = lists.places.people.get(person);
  if (place_ === undefined) {
    place.replaceChildren(top, ...then, el('p.empty', {}, 'Nobody is listed by that name.'));
    return;
  }
  const [all, counted, facts] = await Promise.all([grants({ people: { at: [place_] } }, at),
    totals({ people: { at: [place_] } }, at), attributes('AccessSubject', person, at)]);
  if (!isOpen()) return;
  given = all.sort((a, b) => b.cells - a.cells);
  place.replaceChildren(top, ...then, el('div.page', {}, el('h1', {}, who(person)),
    el('p.lead', { role: 'status' }, sentence(counted.totals.people[0])),
    el('p', {}, link('table', { action: lists.actions[0], find: person, at }, 'In the table'), ' · ',
      may('changes') ? link('changes', { entity: person }, 'Edits of this person') : null, ' · ',
      may('changes') ? link('changes', { entity: person, net: '1' }, 'What changed for this person') : null),
    el('h2', {}, 'What is known of this person'), knownOf('people', person, facts),
    el('h2', {}, 'What this person may, by the rule that gives it'),
    given.length ? grantTable() : el('p.quiet', {}, 'Nothing.')));
}

const HEADS = ['Rule', 'Actions', 'Resources', '#Cells'];

const grantTable = () => tableOf(HEADS, given.map(grantRow), 'What this person may');

/** @returns {Sheet} */
export const sheet = () => ({
  title: `What ${person} may`, filter: at ? [`as it was on ${at}`] : [], heads: HEADS,
  rows: given.map((grant) => [grant.entries.map((entry) => `${pathWords(entry)} › ${entry.rule ?? 'by default'}`).join(
    '; '),
    grant.actions.join(', '), grant.resources.join(', '), grant.cells]),
});

let wait = 0;

/**
 * Something changed: the page is read anew where it is of this person.
 * @param {Change[]} changes
 */
export function told(changes) {
  if (at || !changes.some((each) => each.person === person)) return;
  clearTimeout(wait);
  wait = window.setTimeout(() => window.dispatchEvent(new HashChangeEvent('hashchange')), 300);
}
