// Who may both: the people who have Permit on one of some actions and on one of others.
import { conflicts } from './front.js';
import { desk } from './state.js';
import { el, link, name, number, plural, tableOf } from './words.js';
import { labelled } from './bar.js';
import { cellLink } from './known.js';
import { who } from './called.js';
import { forgetPair, keepPair, pairs } from './pairs.js';

/** @typedef {import('./pairs.js').Pair} Pair */

/** @param {string} text */
const namesIn = (text) => text.split(',').map((each) => each.trim()).filter(Boolean);

/** Draws the view anew. */
const again = () => window.dispatchEvent(new HashChangeEvent('hashchange'));

/**
 * The pairs that were saved.
 * @param {string} at
 */
function savedPairs(at) {
  const saved = pairs();
  if (!saved.length) return null;
  const row = (/** @type {Pair} */ pair) => el('li', {},
    link('findings', { what: 'both', ...pair, at },
      name(`${pair.left} and ${pair.right}${pair.same === '0' ? '' : ', of the same resource'}`)), ' · ',
    el('button.link', { type: 'button', 'aria-label': `Forget ${pair.left} and ${pair.right}`, onclick: () => {
      forgetPair(pair);
      again();
    } }, 'forget'));
  return [el('h2', {}, 'Saved pairs'), el('ul', {}, saved.map(row))];
}

/** @param {string} key @param {string} words @param {string} value */
const field = (key, words, value) => labelled(words,
  el('input', { name: key, value, list: 'actions', placeholder: 'actions, with commas', size: 22 }));

/**
 * The form in which a pair is asked.
 * @param {Pair} pair @param {(more: Record<string, any>) => void} go
 */
function pairForm(pair, go) {
  const form = el('form.trial', { onsubmit: (/** @type {Event} */ event) => {
    event.preventDefault();
    const given = new FormData(form);
    go({ left: given.get('left'), right: given.get('right'), same: given.get('same') ? '' : '0' });
  } }, el('div.fields', {}, field('left', 'May do one of', pair.left), field('right', 'and one of', pair.right),
    el('label.check', {}, el('input', { type: 'checkbox', name: 'same', checked: pair.same !== '0' }),
      el('span', {}, 'of the same resource')),
    el('datalist', { id: 'actions' }, desk.lists.actions.map((value) => el('option', { value })))),
  el('p.acts', {}, el('button.main', { type: 'submit' }, 'Who may both?'),
    pair.left && pair.right ? el('button', { type: 'button', onclick: () => {
      keepPair(pair);
      again();
    } }, 'Save this pair') : null));
  return form;
}

/** @param {string} person @param {Side} side @param {string} at */
const sideOf = (person, { action, resource, cells }, at) => [
  cellLink(person, action, resource, at, name(`${action} on ${resource}`)),
  cells > 1 ? el('span.quiet', {}, ` and ${number(cells - 1)} more`) : null];

/**
 * @param {URLSearchParams} query @param {string} at @param {(more: Record<string, any>) => void} go
 * @returns {Promise<{made: any[], paper: Sheet | null}>}
 */
export async function both(query, at, go) {
  const pair = { left: query.get('left') ?? '', right: query.get('right') ?? '', same: query.get('same') ?? '' };
  const form = pairForm(pair, go), same = pair.same !== '0';
  if (!pair.left || !pair.right) return { made: [form, savedPairs(at)], paper: null };
  const side = (/** @type {string} */ text) => ({ actions: namesIn(text), resources: [] });
  const found = await conflicts(side(pair.left), side(pair.right), same, at);
  const row = (/** @type {Conflict} */ { person, left, right }) =>
    [link('person', { person, at }, who(person)), sideOf(person, left, at), sideOf(person, right, at)];
  return {
    made: [form, el('p.lead', { role: 'status' },
      `${plural(found.length, 'person', 'people')} may do both${same ? ' to the same resource' : ''}.`),
    found.length ? tableOf(['Person', 'First', 'Second'], found.map(row), 'Who may both') : null, savedPairs(at)],
    paper: { title: `Who may ${pair.left} and ${pair.right}`,
      filter: [same ? 'of the same resource' : 'of any resource'],
      heads: ['Person', 'First', '#Cells', 'Second', '#Cells'],
      rows: found.map(({ person, left, right }) => [person, `${left.action} on ${left.resource}`, left.cells,
        `${right.action} on ${right.resource}`, right.cells]) },
  };
}
