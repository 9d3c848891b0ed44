// What a reviewer sees of a row before she signs it: what it gives, why it is asked, the rules, and what these rest on.
import { may } from './state.js';
import { duties, factsTable, pathWords, ruleElement } from './cell.js';
import { gathered } from './made.js';
import { open } from './panel.js';
import { el, few, link, name, number, plural } from './words.js';
import { doneBy, editLink, editOf, isKnown, itemOf, lastWords, ownNames } from './reviewing.js';
import { actionsOf, rulesIn } from './signlist.js';
import { canUndo } from './acts.js';
import { who } from './called.js';

/** @typedef {{told: Awaited<ReturnType<typeof itemOf>>, rules: any[]}} Details */
/** @typedef {{keep: () => void, revoke: () => void, pass: () => void, undo: () => void}} Acts */

/**
 * Which row is shown, with all that its answer rests on: none while that is on its way.
 * @type {{row: ListRow | null}}
 */
export const side = { row: null };

/** @type {Map<string, Promise<Details>>} */
const known = new Map();
const MOST = 60;

/** @param {Entry} entry */
const plainRule = (entry) => el('div.why', {}, el('b', {}, name(entry.rule ?? 'By default: no rule gave this')),
  el('div.quiet', {}, name(pathWords(entry))));

/**
 * What an item's answer rests on, asked once while its group is the same.
 * @param {string} campaign @param {ItemGroup} group @param {number} item @returns {Promise<Details>}
 */
function detailsOf(campaign, group, item) {
  const key = JSON.stringify([campaign, item, group.digest]), there = known.get(key);
  if (there) return there;
  const asked = itemOf(campaign, item).then(async (told) => ({
    told, rules: await Promise.all(group.why.map((entry) => (may('documents') ? ruleElement(entry, '')
      : plainRule(entry)))),
  }));
  known.set(key, asked);
  asked.catch(() => known.delete(key));
  for (const old of known.keys()) if (known.size > MOST) known.delete(old);
  return asked;
}

/** What was read of items is read anew. */
export const forget = () => known.clear();

/**
 * Reads what a row rests on, before it is marked.
 * @param {string} campaign @param {ListRow | undefined} row
 */
export const prefetch = (campaign, row) => {
  if (row) detailsOf(campaign, row.group, row.group.items[0].item).catch(() => {});
};

/**
 * What happened to an item's sign-off, in words; nothing where nobody signed.
 * @param {Item} item
 */
function signedWords({ signed, by, back }) {
  if (!signed) return null;
  const how = signed.as === 'keep' ? 'Kept ' : 'To be revoked ';
  return [how, name(doneBy(signed)), signed.from ? [' in ', name(signed.from)] : '', signed.why
    ? [': “', name(signed.why), '”'] : '', '. ',
  by ? ['It fell: ', editLink(by, name(editOf(by))), ' ', name(doneBy(by)), back
    ? '. The answer is again the one that was signed. ' : '. '] : null];
}

/**
 * Why a group is asked for, or how it was signed: each history once, with how many cells have it.
 * @param {ItemGroup} group
 */
function whatHappened({ items }) {
  const key = (/** @type {Item} */ { signed, by, back, changed, last }) =>
    JSON.stringify([signed?.serial, by?.serial, back, changed?.serial, last]);
  return gathered(items, key).slice(0, 3).flatMap(([first, ...others], _, all) => {
    const { changed, last, signed } = first, words = signedWords(first);
    const since = changed && !signed && ['Its answer changed: ', editLink(changed, name(editOf(changed))), ' ',
      name(doneBy(changed)), '. '];
    const before = lastWords(last ?? '');
    if (!words && !since && !before) return [];
    return [el('p.was', {}, all.length > 1 ? `${plural(others.length + 1, 'cell')}: ` : '', words, since, before)];
  });
}

/**
 * The cells of a group: a resource shows what that answer rests on.
 * @param {ItemGroup} group @param {Item} of @param {(item: Item) => void} choose
 */
function cellsOf(group, of, choose) {
  const button = (/** @type {Item} */ item) => el('button.link', { type: 'button', 'aria-pressed': String(item === of),
    onclick: () => choose(item) }, name(item.resource));
  return el('table.facts', { 'aria-label': 'The cells' }, actionsOf(group).map((action) => {
    const items = group.items.filter((each) => each.action === action);
    return el('tr', {}, el('td', {}, name(action)), el('td', {}, few(items.map((_, i) => String(i)),
      (i) => button(items[Number(i)]), 20)));
  }));
}

/**
 * The buttons of a row, for who may sign it.
 * @param {ListRow} row @param {Acts} acts @param {boolean} isEnded
 */
function buttons({ group, state }, acts, isEnded) {
  if (isEnded) return el('p.quiet', {}, 'The campaign has ended.');
  if (!isKnown()) {
    return el('p.quiet', {}, 'Nobody can sign here: this service doesn’t know who asks (', el('code', {}, '--access'),
      ').');
  }
  if (!ownNames().includes(group.reviewer)) return el('p.quiet', {}, name(group.reviewer), ' reviews this.');
  const button = (/** @type {string} */ words, /** @type {string} */ key, /** @type {() => void} */ does) =>
    el('button', { type: 'button', onclick: does, 'aria-keyshortcuts': key }, `${words} `, el('kbd', {}, key));
  const isGone = state === 'gone' || state === 'revoked' || state === 'passed';
  return el('p.acts', {}, isGone || state === 'kept' ? null : button('Keep', 'Y', acts.keep),
    isGone || state === 'revoke' ? null : button('Revoke', 'X', acts.revoke),
    state === 'open' || state === 'fell' ? button('Not mine', 'N', acts.pass) : null,
    canUndo() ? button('Undo', 'U', acts.undo) : null);
}

/**
 * A line to be typed before an act is sent: why, or to whom.
 * @param {string} words @param {string} button @param {string[]} offers @param {(text: string) => void} then
 */
export function askLine(words, button, offers, then) {
  const place = document.querySelector('#panel .line');
  const input = el('input', { name: 'line', required: true, autocomplete: 'off', maxlength: 1000, list: 'offers' });
  const leave = () => {
    place?.replaceChildren();
    /** @type {any} */ (document.querySelector('.items'))?.focus();
  };
  place?.replaceChildren(el('form', { onsubmit: (/** @type {Event} */ event) => {
    event.preventDefault();
    if (!input.value.trim()) return;
    leave();
    then(input.value.trim());
  }, onkeydown: (/** @type {KeyboardEvent} */ event) => {
    if (event.key !== 'Escape') return;
    event.stopPropagation();
    leave();
  } }, el('label', {}, el('span', {}, words), input),
  el('datalist', { id: 'offers' }, offers.map((value) => el('option', { value }))),
  el('p.acts', {}, el('button.main', { type: 'submit' }, button), el('button', { type: 'button', onclick: leave },
    'Leave it'))));
  input.focus();
}

/**
 * What an item's answer rests on, once it is there.
 * @param {Details} details @param {Item} item @param {boolean} isOnly
 */
const restOf = ({ told }, item, isOnly) => [
  el('h3', {}, isOnly ? 'What it rests on' : ['What ', name(item.action), ' on ', name(item.resource), ' rests on']),
  factsTable(told.explain?.facts ?? []),
  told.explain?.more ? el('p.quiet', {}, `and ${number(told.explain.more)} more look-ups`) : null,
  el('p.foot', {}, `As of serial ${number(told.serial)}. While each of these is the same, so is the answer.`)];

/**
 * Shows a row. Its own words are there at once; what it rests on comes behind, and until then it can't be signed.
 * @param {string} campaign @param {ListRow} row @param {Acts} acts @param {boolean} isEnded
 */
export async function showRow(campaign, row, acts, isEnded) {
  const { group } = row, [first] = group.items, cells = el('div');
  const rest = el('div', {}, el('p.quiet', {}, 'Reading ..'));
  side.row = null;
  let turn = 0;
  const choose = async (/** @type {Item} */ item) => {
    turn += 1;
    const now = turn;
    cells.replaceChildren(cellsOf(group, item, choose));
    const details = await detailsOf(campaign, group, item.item).catch((/** @type {Error} */ fault) => fault);
    if (now !== turn || !rest.isConnected) return;
    if (details instanceof Error) {
      rest.replaceChildren(el('p.fault', { role: 'alert' }, `This can’t be told: ${details.message}.`));
      return;
    }
    side.row = row;
    rest.replaceChildren(el('div', {}, el('h3', {}, 'Decided by'), details.rules,
      duties('Obligations', item.obligations ?? []), duties('Advice', item.advice ?? []),
      restOf(details, item, group.items.length === 1)));
  };
  open([
    el('h2', {}, may('names') ? link('person', { person: group.person }, who(group.person)) : who(group.person),
      el('span.quiet', {}, ' by '), name(rulesIn(group))),
    row.fault ? el('p.fault', { role: 'alert' }, 'Not signed: ', name(row.fault), '. Look at it again.') : null,
    whatHappened(group), buttons(row, acts, isEnded), el('div.line'), el('h3', {}, plural(group.items.length, 'cell')),
    cells, rest,
  ], () => { side.row = null; });
  await choose(first);
}
