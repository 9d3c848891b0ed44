// What changed: lost first, then gained, then what is otherwise; one row for a person, an action and a direction.
import { el, decided, few, link, name, number } from './words.js';
import { gathered } from './made.js';
import { who } from './called.js';

const isPermit = (/** @type {string | null} */ decision) => decision === 'Permit';

/**
 * Changes as losses, gains and others.
 * @param {Change[]} changes
 */
export const sorted = (changes) => ({
  lost: changes.filter(({ before, after }) => isPermit(before) && !isPermit(after)),
  gained: changes.filter(({ before, after }) => !isPermit(before) && isPermit(after)),
  other: changes.filter(({ before, after }) => isPermit(before) === isPermit(after)),
});

/**
 * Changes joined: those of one person, action and direction are one row.
 * @param {Change[]} changes @returns {{of: Change, resources: string[]}[]}
 */
export const joined = (changes) => gathered(changes, ({ person, action, before, after }) =>
  JSON.stringify([person, action, before, after])).map((group) =>
  ({ of: group[0], resources: group.map(({ resource }) => resource) }));

/**
 * The rows of one direction, as many as are wanted at once.
 * @param {Change[]} changes @param {string} at @param {string} label
 */
function rowsOf(changes, at, label) {
  const all = joined(changes), first = all.slice(0, 200);
  const row = (/** @type {{of: Change, resources: string[]}} */ { of, resources }) => el('tr', {},
    el('td', {}, link('person', { person: of.person, at }, who(of.person))), el('td', {}, name(of.action)),
    el('td', {}, few(resources, (resource) => link('table', {
      action: of.action, person: of.person, resource, find: of.person, at }, name(resource)))),
    el('td', {}, decided(of.before)), el('td', {}, of.before === of.after
      ? el('span.quiet', {}, 'other reasons or obligations') : el('span.decided', {}, '→', decided(of.after))));
  return [el('table.facts.moves', { 'aria-label': label }, first.map(row)),
    all.length > first.length ? el('p.quiet', {},
      `and ${number(all.length - first.length)} more rows: they are on paper`) : null];
}

/**
 * Losses, gains and others, each under its head.
 * @param {Change[]} changes @param {string} [at]
 */
export function movesOf(changes, at = '') {
  const { lost, gained, other } = sorted(changes);
  const part = (/** @type {string} */ kind, /** @type {string} */ words, /** @type {Change[]} */ list) =>
    list.length > 0
    && el(`section.${kind}`, {}, el('h3', {}, `${words}: ${number(list.length)}`), rowsOf(list, at, words));
  return el('div', {}, part('lost', 'Lost', lost), part('gained', 'Gained', gained), part('other', 'Other', other));
}

/**
 * The same for paper.
 * @param {Change[]} changes @returns {(string | number)[][]}
 */
export function moveRows(changes) {
  const { lost, gained, other } = sorted(changes);
  const parts = /** @type {[string, Change[]][]} */ ([['lost', lost], ['gained', gained], ['other', other]]);
  return parts.flatMap(([kind, list]) => joined(list).map(({ of, resources }) =>
    [kind, of.person, of.action, of.before ?? 'not listed', of.after ?? 'not listed', resources.length,
      resources.join(', ')]));
}

export const MOVE_HEADS = ['Kind', 'Person', 'Action', 'Before', 'After', '#Cells', 'Resources'];

/**
 * Lost and gained, with their signs and words.
 * @param {number} lost @param {number} gained
 */
export const balance = (lost, gained) => [
  el(`span.count.${lost ? 'lost' : 'nil'}`, {}, lost ? `−${number(lost)} lost` : '0 lost'),
  el(`span.count.${gained ? 'gained' : 'nil'}`, {}, gained ? `+${number(gained)} gained` : '0 gained'),
];
