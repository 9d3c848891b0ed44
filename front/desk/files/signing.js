// Signing: a reviewer's list, a row for a person and the rules that give what she may. An act is for a row, by a key or
// a button, and is refused while the side doesn't show that row.
import { desk, may } from './state.js';
import { header, listen } from './live.js';
import { address, el, field, link, moment, number, plural, say, shown } from './words.js';
import { bar, menu, printing } from './bar.js';
import { hooks, isBusy, own, sign, undo } from './acts.js';
import { close } from './panel.js';
import { campaign as campaignOf, groupsOf, isKnown } from './reviewing.js';
import { SignList, actionsOf, isToDo, resourcesOf, rulesIn, stateWords } from './signlist.js';
import { askLine, forget, prefetch, showRow, side } from './signside.js';
import { pathWords } from './cell.js';
import { whoText } from './called.js';

export const title = 'Sign-off', needs = ['campaign.items'];

const SHOWN = /** @type {[string, string][]} */ ([['', 'everything'], ['open fell', 'to do'], ['kept', 'kept'],
  ['revoke', 'to revoke'], ['fell', 'fallen']]);

let name = '', reviewer = '', only = '', serial = 0, late = 0, isMore = false, isDue = false, took = 0;
/** Serials of which something was heard since the list was read. */
const heard = new Set();
/** @type {Campaign} */
let campaign;
/** @type {SignList} */
let list;
/** @type {HTMLElement} */
let head;
/** @type {HTMLElement} */
let note;
/** @type {HTMLElement} */
let empty;
let stop = () => {};

/** What came since the last sign-off stands first: what fell, then what has another answer. */
const isFresh = (/** @type {ListRow} */ { group }) => group.items.some((each) => each.changed || each.last === 'fell'
  || each.last === 'another answer');

/** @param {ListRow} row */
const rankOf = (row) => (row.state === 'fell' ? 0 : row.state === 'open' ? (isFresh(row) ? 1 : 2)
  : { revoke: 3, kept: 4, revoked: 5 }[row.state] ?? 6);

/** @param {ItemGroup} group @returns {ListRow} */
export const rowOf = (group) => ({ key: JSON.stringify([group.person, group.why, group.reviewer]), group,
  state: group.state, waits: 0, fault: '' });

/** Who reviews: all that are known of this campaign. */
function reviewers() {
  const given = campaign.campaign.reviewers.flatMap((each) => (each.name ? [each.name] : []));
  return [...new Set([...Object.keys(campaign.reviewers), ...given])].sort();
}

function drawHead() {
  const count = /** @type {Record<string, number>} */ ({ open: 0, fell: 0, kept: 0, revoke: 0 });
  for (const { state } of list.rows) if (state in count) count[state] += 1;
  const done = count.kept + count.revoke, all = done + count.open + count.fell;
  head.replaceChildren(el('progress', { max: Math.max(1, all), value: done, 'aria-label': 'Signed' }),
    el('span', {}, el('b', {}, `${number(done)} of ${number(all)}`), ' rows signed',
      all ? ` (${Math.floor((100 * done) / all)} %)` : ''),
    el('span', {}, `${number(count.kept)} kept`), el('span', {}, `${number(count.revoke)} to revoke`),
    el('span', {}, `${number(count.fell)} fallen`), el('span', {}, `${number(count.open)} to do`));
}

/** @param {ListRow} row */
function moved(row) {
  showRow(name, row, acts, Boolean(campaign.ended));
  for (let i = 1; i <= 3; i += 1) prefetch(name, list.rows[list.at + i]);
}

/** Whether the marked row can be signed now; else it is said why not. */
function isReady() {
  const { row } = list;
  if (!row || campaign.ended || !isKnown()) return false;
  if (row.waits) say('The last act of this row is on its way.');
  else if (side.row !== row) {
    say('Not yet: what it rests on isn’t here.');
    if (field('panel').hidden) moved(row);
  } else return true;
  return false;
}

/**
 * Signs the marked row, and goes on to the next one to do.
 * @param {import('./acts.js').Kind} kind @param {any} [more] @param {ListRow} [row]
 */
function signed(kind, more, row = list.row) {
  note.replaceChildren();
  sign(name, row, kind, serial, more);
  list.drawRow(row);
  list.box.focus();
  drawHead();
  const next = list.next(), word = `${shown(row.group.person)}: ${stateWords(row.state)}.`;
  if (next < 0) {
    moved(list.row);
    say(`${word} That was the last one.`);
    return;
  }
  list.go(next);
  say(`${word} Next: ${shown(list.row.group.person)} by ${shown(rulesIn(list.row.group))}`);
}

const acts = {
  keep: () => { if (isReady() && list.row.state !== 'kept') signed('keep'); },
  revoke() {
    const { row } = list;
    if (!isReady() || row.state === 'revoke') return;
    askLine('Why is it to go? Nothing is edited: it becomes a task.', 'Ask to revoke', [],
      (why) => signed('revoke', { why }, row));
  },
  pass() {
    const { row } = list;
    if (!isReady() || !isToDo(row)) return;
    askLine('Whose is it?', 'Pass it on', reviewers(), (to) => signed('pass', { to }, row));
  },
  undo() {
    const row = undo(name);
    if (!row) {
      say('Nothing was signed here since this page was opened.');
      return;
    }
    const at = list.rows.indexOf(row);
    if (at >= 0) list.go(at);
    list.box.focus();
    drawHead();
    say(`Taken back: ${shown(row.group.person)}`);
  },
};

/** @param {KeyboardEvent} event */
function key(event) {
  const keys = /** @type {Record<string, () => void>} */ ({ ArrowDown: () => list.go(list.at + 1),
    j: () => list.go(list.at + 1), ArrowUp: () => list.go(list.at - 1), k: () => list.go(list.at - 1),
    Home: () => list.go(0), End: () => list.go(list.rows.length - 1), PageDown: () => list.go(list.at + 15),
    PageUp: () => list.go(list.at - 15), Enter: () => list.go(list.at), y: acts.keep, x: acts.revoke, n: acts.pass,
    u: acts.undo });
  const does = keys[event.key.length === 1 ? event.key.toLowerCase() : event.key];
  if (!does || event.ctrlKey || event.metaKey || event.altKey) return;
  event.preventDefault();
  does();
}

/** The groups as rows, those of before in their places. */
async function read() {
  const asked = { reviewer: reviewer || undefined, state: only ? only.split(' ') : undefined };
  const [now, all] = await Promise.all([campaignOf(name), groupsOf(name, asked)]);
  [campaign, serial, isMore] = [now, all.serial, all.more];
  return all.groups.map(rowOf);
}

/** Whether the list is the open view. */
const isHere = () => Boolean(list?.box.isConnected);

/**
 * Reads all anew where others did something or an act wasn't taken, and leaves the mark and the order as they are.
 */
async function again() {
  if (isBusy()) { // it is read once nothing is on its way
    later();
    return;
  }
  const isNews = isDue || [...heard].some((each) => !own.has(each)), old = list, started = performance.now();
  isDue = false;
  heard.clear();
  if (!isNews) return;
  forget();
  const rows = await read().catch(() => null);
  if (!rows || list !== old || !isHere()) return;
  if (isBusy()) {
    isDue = true;
    later();
    return;
  }
  merge(rows);
  desk.serial = Math.max(desk.serial, serial);
  if (!may('notices')) header.state('live', 200);
  took = performance.now() - started;
}

/**
 * Shows rows as they are now, those of before in their places.
 * @param {ListRow[]} rows
 */
function merge(rows) {
  const places = new Map(list.rows.map((row, i) => [row.key, i])), { row } = list;
  const place = (/** @type {ListRow} */ each) => places.get(each.key) ?? list.rows.length;
  rows.sort((a, b) => place(a) - place(b) || rankOf(a) - rankOf(b));
  const faults = new Map(list.rows.filter((each) => each.fault).map((each) => [each.key, each.fault]));
  for (const each of rows) if (isToDo(each)) each.fault = faults.get(each.key) ?? '';
  const same = row ? rows.findIndex((each) => each.key === row.key) : 0;
  const isSame = same >= 0 && row && rows[same].group.digest === row.group.digest && rows[same].state === row.state
    && rows[same].fault === row.fault;
  list.fill(rows, same >= 0 ? same : list.at);
  empty.hidden = rows.length > 0;
  drawHead();
  if (isSame && side.row === row) side.row = list.row;
  else if (list.row) moved(list.row);
}

/** Something happened: a moment later the list is read anew, the later the longer that takes. */
function later() {
  clearTimeout(late);
  late = window.setTimeout(again, 300 + 3 * took);
}

/** All is read anew, whatever is known here. */
function anew() {
  isDue = true;
  later();
}

hooks.drawn = (row) => {
  if (!isHere()) return;
  list.drawRow(row);
  if (row === list.row && !row.waits && !row.fault) moved(row); // its history is another one
};
hooks.failed = (row, words) => {
  if (!isHere()) return; // it is to do when the list is opened again
  note.append(el('p.fault', { role: 'alert' }, `Not signed: ${shown(row.group.person)} by ${shown(
    rulesIn(row.group))}: ${shown(words)}.`));
  drawHead();
  anew();
};

/** The lines above the list. */
function top() {
  const go = (/** @type {Record<string, string>} */ more) => {
    location.hash = address('signing', { campaign: name, reviewer, only, ...more });
  };
  const names = reviewers().map((each) => /** @type {[string, string]} */ ([each, shown(each)]));
  return bar(may('campaign.all') ? menu('reviewer', 'Reviewer', [['', 'everybody'], ...names], reviewer,
    (chosen) => go({ reviewer: chosen })) : null,
  menu('only', 'Show', SHOWN, only, (chosen) => go({ only: chosen })), printing());
}

/** @param {HTMLElement} place @param {URLSearchParams} query @param {() => boolean} isOpen */
export async function show(place, query, isOpen) {
  [name, reviewer, only] = ['campaign', 'reviewer', 'only'].map((each) => query.get(each) ?? '');
  const rows = await read();
  if (!isOpen()) return;
  rows.sort((a, b) => rankOf(a) - rankOf(b));
  list = new SignList(moved, key);
  head = el('span.progress', { role: 'status' });
  note = el('div');
  empty = el('p.empty', { hidden: rows.length > 0 }, 'Nothing is here to be signed.');
  const { ends } = campaign.campaign;
  place.replaceChildren(top(), el('div.keys.lines', {}, el('span', {}, link('campaign', { campaign: name }, name),
    campaign.ended ? `, ended ${moment(campaign.ended.time)}` : ends ? `, until ${ends}` : ''), head,
  isMore ? `The first ${plural(rows.length, 'row')} are here.` : ''), note,
  empty, list.box,
  el('p.keys', {}, 'J and K or the arrows move, Y keeps, X asks to revoke, N passes on, U takes the last act back. ',
    'What fell, and what has another answer than before, stands first.'));
  list.fill(rows, Math.max(0, rows.findIndex(isToDo)));
  drawHead();
  stop();
  stop = hearing(isOpen);
  if (!rows.length) close();
  else {
    list.box.focus();
    list.go(list.at);
  }
}

/** @param {() => boolean} isOpen */
const hearing = (isOpen) => listen({
  event({ id }) {
    if (!isOpen() || Number(id) <= campaign.up_to) return;
    heard.add(Number(id));
    later();
  },
  state(state, status) { // who hears no edits hears of the campaign
    desk.serial = Math.max(desk.serial, serial);
    if (!may('notices') && isOpen()) header.state(state, status);
  },
}, `campaigns/${name}/events`, campaign.up_to);

/**
 * An edit changed something, or somebody signed: answers that fell stand first when the list is opened again.
 * @param {Change[]} changes @param {number} at
 */
export function told(changes, at) {
  heard.add(at);
  if (changes.length) anew();
  else later();
}

export const renew = anew;

export function left() {
  stop();
  stop = () => {};
  clearTimeout(late);
  if (!may('notices')) header.state('barred', 0);
}

/** @returns {Sheet} */
export function sheet() {
  const filter = [...(reviewer ? [`reviewed by ${reviewer}`] : may('campaign.all') ? [] : [`reviewed by ${
    desk.who.name}`]), ...(only ? [only.split(' ').map(stateWords).join(', ')] : [])];
  return sheetOf(`Sign-offs of ${name}`, filter, list.rows);
}

/**
 * Rows of a campaign on paper.
 * @param {string} what @param {string[]} filter @param {ListRow[]} rows @returns {Sheet}
 */
export const sheetOf = (what, filter, rows) => ({
  title: what, filter, heads: ['Person', 'Rule', 'Actions', 'Resources', '#Cells', 'Reviewer', 'State', 'Signed by',
    'When', '#Serial', 'Because', 'Ended by', 'Digest of the answers'],
  rows: rows.map(({ group, state }) => {
    const [{ signed, by }] = group.items;
    const rules = group.why.map((entry) => `${pathWords(entry)} › ${entry.rule ?? 'by default'}`);
    return [whoText(group.person), rules.join('; '), actionsOf(group).join(', '), resourcesOf(group).join(', '),
      group.items.length, group.reviewer,
      stateWords(state), signed?.by ?? '', signed ? moment(signed.time) : '', signed?.serial ?? '', signed?.why ?? '',
      by ? `serial ${by.serial}, ${by.by}, ${moment(by.time)}` : '', group.digest];
  }),
});
