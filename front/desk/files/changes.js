// What changed: since the page was opened, a serial or a day; edit by edit, or all of them together.
import { changes as asked, edits } from './front.js';
import { desk } from './state.js';
import { address, el, link, moment, name, number, plural } from './words.js';
import { bar, labelled, printing } from './bar.js';
import { MOVE_HEADS, balance, movesOf, moveRows, sorted } from './moves.js';
import { aboutOf, editWords } from './editwords.js';

export const title = 'What changed', needs = ['changes'];

const PAGE = 200;

/** @type {{since: string, until: string, by: string, kind: string, entity: string, who: string, net: string}} */
let filter = { since: '', until: '', by: '', kind: '', entity: '', who: '', net: '' };
/** @type {Edit[]} */
let shownEdits = [];
/** @type {Change[]} */
let netChanges = [];
/** @type {HTMLElement} */
let list;
let late = 0;

/** @param {Record<string, string>} more */
const go = (more) => { location.hash = address('changes', { ...filter, ...more }); };

/** The edits that are wanted, as the front's path has it. */
const query = (/** @type {number} */ from) => ({ since: filter.since, until: filter.until, by: filter.by,
  kind: filter.kind, entity: filter.entity, from: from || undefined, count: PAGE });

/**
 * A field of the filter.
 * @param {string} words @param {keyof typeof filter} key @param {string} hint
 */
const text = (words, key, hint) => labelled(words, el('input', { name: key, value: filter[key], placeholder: hint,
  size: 11,
  onchange: (/** @type {any} */ event) => go({ [key]: event.target.value.trim() }) }));

/** @param {string} words @param {'since' | 'until'} key */
const day = (words, key) => labelled(words, el('input', { type: 'date', name: `${key}-day`,
  value: /^\d{4}-\d\d-\d\d/.test(filter[key]) ? filter[key].slice(0, 10) : '',
  onchange: (/** @type {any} */ event) => go({ [key]: event.target.value }) }));

function makeBar() {
  const isSerial = (/** @type {string} */ given) => (/^\d+$/.test(given) ? given : '');
  return bar(
    labelled('Since serial', el('input', { name: 'since', inputmode: 'numeric', size: 8, value: isSerial(filter.since),
      onchange: (/** @type {any} */ event) => go({ since: event.target.value.trim() }) })),
    day('or since the day', 'since'), day('until before the day', 'until'),
    text('Of', 'entity', 'a name, doc*'), text('By', 'by', 'who edited'),
    labelled('Edits of', el('select', { name: 'kind', onchange: (/** @type {any} */ event) =>
      go({ kind: event.target.value }) },
      KINDS.map(([value, words]) => el('option', { value, selected: value === filter.kind }, words)))),
    el('button', { type: 'button', onclick: () => go({ since: String(desk.opened), until: '' }) },
      'Since this page was opened'),
    el('button', { type: 'button', 'aria-pressed': String(Boolean(filter.net)), onclick: () =>
      go({ net: filter.net ? '' : '1' }) },
      'All together'),
    printing(),
  );
}

const KINDS = [['', 'any kind'], ['attr.set', 'values'], ['policy.*', 'policies'], ['person.*', 'people'],
  ['resource.*', 'resources'], ['action.*', 'actions'], ['root.set', 'the root'], ['day.set', 'the day'],
  ['moment.set', 'the moment']];

/**
 * An edit with what it changed.
 * @param {Edit} edit @param {boolean} isOpen
 */
function editElement(edit, isOpen) {
  const { lost, gained } = sorted(edit.changed ?? []), [what, detail] = editWords(edit.line, edit.kind),
    about = aboutOf(edit.line);
  const made = el('details.edit', { open: isOpen }, el('summary', {},
    el('span.serial', {}, number(edit.serial)), el('span.what', {}, name(what)),
    edit.changed ? balance(lost.length, gained.length) : [el('span.count.nil', {}, 'not known'), el('span')],
    el('span.by', {}, name(edit.by), ` · ${moment(edit.time)}`)));
  const fill = () => {
    if (made.children.length > 1) return;
    made.append(el('div', {}, detail ? el('p.quiet', {}, name(detail)) : null,
      about ? el('p', {}, link(about[0], about[1], `What stands of ${about[0] === 'document' ? 'the document'
        : 'it'} now`)) : null,
      edit.changed ? movesOf(edit.changed)
        : el('p', {}, `${plural(edit.changes, 'answer')} changed; which ones isn’t known any more.`),
      edit.changed && edit.changes === 0 ? el('p.quiet', {}, 'No answer changed.') : null,
      edit.more ? el('p.quiet', {}, `and ${number(edit.more)} more answers: `, link('changes', {
        since: edit.serial - 1, until: edit.serial, net: '1' }, 'all of this edit')) : null));
  };
  made.addEventListener('toggle', fill);
  if (isOpen) fill();
  return made;
}

/**
 * How much was lost and gained over some edits, in a sentence.
 * @param {Edit[]} all @param {boolean} more
 */
function sentence(all, more) {
  const parts = all.map((edit) => sorted(edit.changed ?? [])), sum = (/** @type {'lost' | 'gained' | 'other'} */ key) =>
    parts.reduce((count, part) => count + part[key].length, 0);
  const unknown = all.filter((edit) => edit.changed === null).length;
  return `${plural(all.length, 'edit')}${more ? ' (the first)' : ''}: over them ${plural(sum('lost'),
    'Permit')} lost, ${
    number(sum('gained'))} gained, ${number(sum('other'))} answers changed otherwise.${
    unknown ? ` Of ${plural(unknown, 'edit')} it isn’t known any more what changed.` : ''}`;
}

/**
 * All edits that are wanted; more are asked as of the same serial.
 * @returns {Promise<{all: Edit[], more: boolean, unknown: Range[]}>}
 */
async function read() {
  const first = await edits(query(0)), all = first.edits;
  let { more } = first;
  while (more && all.length < 2000) {
    const next = await edits({ ...query(all.length), until: first.serial });
    all.push(...next.edits);
    more = next.more && next.edits.length > 0;
  }
  return { all, more, unknown: first.unknown ?? [] };
}

/** @param {Range[]} unknown */
const unknownWords = (unknown) => unknown.map(({ after, last }) => el('p.quiet', {},
  `What edits changed behind serial ${number(after)} up to ${number(last)} isn’t known any more.`));

async function drawEdits(/** @type {() => boolean} */ isOpen) {
  const { all, more, unknown } = await read();
  if (!isOpen()) return;
  shownEdits = all;
  netChanges = [];
  const newest = [...all].reverse();
  list.replaceChildren(el('p.lead', { role: 'status' }, sentence(all, more)), ...unknownWords(unknown),
    ...newest.slice(0, PAGE).map((edit, i) => editElement(edit, newest.length === 1 || i < 2 && edit.changes > 0)),
    ...(newest.length > PAGE ? [el('p.quiet', {}, `and ${number(newest.length - PAGE)} edits before: choose fewer`)]
      : []));
}

async function drawNet(/** @type {() => boolean} */ isOpen) {
  const told = await asked({ since: filter.since || '0', until: filter.until, persons: filter.entity });
  if (!isOpen()) return;
  netChanges = told.changes;
  shownEdits = [];
  const { lost, gained, other } = sorted(netChanges);
  list.replaceChildren(el('p.lead', { role: 'status' },
    `From one end to the other ${plural(lost.length, 'Permit')} lost, ${
    number(gained.length)} gained,
      ${number(other.length)} answers changed otherwise. What changed and changed back isn’t here.`),
  movesOf(netChanges));
}

/** @param {HTMLElement} place @param {URLSearchParams} given @param {() => boolean} isOpen */
export async function show(place, given, isOpen) {
  filter = /** @type {typeof filter} */ (Object.fromEntries(Object.keys(filter).map((key) =>
    [key, given.get(key) ?? ''])));
  filter.since ||= String(filter.entity || filter.by || filter.kind || filter.until ? 0 : Math.max(0, desk.opened));
  list = el('div.page', {}, el('p.quiet', {}, 'Reading ..'));
  place.replaceChildren(makeBar(), list);
  await (filter.net ? drawNet(isOpen) : drawEdits(isOpen));
}

/**
 * Another edit was made: it is added above, and what is open stays open.
 * @param {Change[]} changes @param {number} serial
 */
export function told(changes, serial) {
  clearTimeout(late);
  if (filter.until || filter.net) return;
  late = window.setTimeout(() => add(serial).catch(() => {}), 200);
}

async function add(/** @type {number} */ serial) {
  const last = shownEdits.length ? shownEdits[shownEdits.length - 1].serial : Number(filter.since) || 0;
  const next = await edits({ ...query(0), since: Math.max(last, serial - 1000) });
  const fresh = next.edits.filter((edit) => edit.serial > last);
  if (!fresh.length || !list.isConnected) return;
  shownEdits.push(...fresh);
  const [lead] = list.children;
  lead.textContent = sentence(shownEdits, false);
  lead.after(...fresh.reverse().map((edit) => editElement(edit, false)));
}

/** Edits of names are edits like others. */
export const renew = () => told([], desk.serial);

/** @returns {Sheet} */
export function sheet() {
  const only = Object.entries(filter).filter(([key, value]) => value && key !== 'net').map(([key, value]) =>
    `${key} ${value}`);
  if (filter.net) return { title: 'What changed, all together', filter: only, heads: MOVE_HEADS,
    rows: moveRows(netChanges) };
  const heads = ['#Serial', 'When', 'By', 'Edit', ...MOVE_HEADS], rows = shownEdits.flatMap((edit) => {
    const head = [edit.serial, moment(edit.time), edit.by, editWords(edit.line, edit.kind)[0]];
    if (edit.changed === null) return [[...head, 'not known', '', '', '', '', edit.changes, '']];
    const moves = moveRows(edit.changed);
    return moves.length ? moves.map((move) => [...head, ...move]) : [[...head, 'none', '', '', '', '', 0, '']];
  });
  return { title: 'What changed, by edits', filter: only, heads, rows };
}
