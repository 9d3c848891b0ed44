// The table: an action's people by resources, turned and filtered as wanted.
import { Letters } from './letters.js';
import { Grid } from './grid.js';
import { changed, desk, keyOf, listsAt } from './state.js';
import { el, mark, number, address, letterOf, kindOf, plural, shown } from './words.js';
import { KEYS, counted, deciding, forgetValues, isPlain, menus, passing, valuesOf } from './filters.js';
import { openCell } from './cell.js';
import { whoLine } from './called.js';
import { bar, labelled, menu, finding, printing } from './bar.js';

/** @typedef {import('./filters.js').Filter} Filter */
/** @typedef {import('./filters.js').Passing} Passing */

const KINDS = [['P', 'Permit'], ['D', 'Deny'], ['N', 'Not applicable'], ['1', 'Indeterminate']];

export const title = 'Table', needs = ['table'];

/** @type {Grid | null} */
let grid = null;
/** @type {Letters | null} */
let letters = null;
/** @type {Filter} */
let filter = {};
/** @type {Lists} */
let lists = desk.lists;
/** @type {Passing} */
let passed = { people: [], resources: [], totals: null, serial: 0 };
let turn = 0, fault = '';
/** @type {HTMLElement} */
let frame;
/** @type {HTMLElement} */
let legend;
/** @type {HTMLElement} */
let foot;

/** @param {Record<string, string>} more */
function change(more) {
  filter = { ...filter, ...more };
  history.replaceState(null, '', address('table', filter));
  apply().catch(tell);
}

/** @param {Error} problem */
function tell(problem) {
  fault = problem.message;
  frame.replaceChildren(el('p.fault', { role: 'alert' }, `This can’t be shown: ${fault}.`));
}

/** @param {List} list @param {string} words @param {Heading[]} headings */
function valueMenu(list, words, headings) {
  const all = menus(headings);
  if (!all.length) return [];
  return [menu(list, words, [['', 'all'], ...all.map(({ attribute, value }) => /** @type {[string, string]} */ (
    [`${attribute}=${value}`, shown(`${attribute} = ${value}`)]))], filter[list],
      (chosen) => change({ [list]: chosen }))];
}

/**
 * The line of filters, whose menus come when they are known.
 * @param {HTMLElement} old
 */
async function drawBar(old) {
  const now = turn, at = filter.at;
  const [people, resources, rules] = await Promise.all([valuesOf('people', at), valuesOf('resources', at),
    deciding(at)]);
  if (now !== turn && filter.at !== at) return;
  old.querySelector('.menus')?.replaceChildren(
    ...valueMenu('people', 'People', people), ...valueMenu('resources', 'Resources', resources),
    menu('rule', 'Decided by', [['', 'any rule'], ...rules.map(({ key, words }) => /** @type {[string, string]} */ (
      [key, shown(words)]))], filter.rule, (rule) => change({ rule })),
  );
}

function makeBar() {
  const made = bar(
    menu('action', 'Action', lists.actions.map((each) => [each, shown(each)]), filter.action,
      (action) => change({ action })),
    finding('Find', filter.find, (find) => change({ find })),
    el('span.menus'),
    labelled('As of', el('input', { type: 'date', name: 'at', value: filter.at, 'aria-label': 'As of the end of a day',
      onchange: (/** @type {any} */ event) =>
        { location.hash = address('table', { ...filter, at: event.target.value }); } })),
    el('button', { type: 'button', onclick: () => change({ turned: filter.turned ? '' : '1' }) }, 'Swap axes'),
    el('button', { type: 'button', onclick: () => { location.hash = address('table', { action: filter.action }); } },
      'Clear'),
    printing(),
  );
  return made;
}

/** The legend is the filter of decisions, and tells how many of what is shown have each. */
function drawLegend() {
  const sums = [0, 0, 0, 0];
  for (const counts of passed.totals?.people ?? []) counts.forEach((n, i) => { sums[i] += n; });
  const kinds = KINDS.map(([letter, words], i) => el('button.kind', {
    type: 'button', 'aria-pressed': String(filter.has === letter),
    onclick: () => change({ has: filter.has === letter ? '' : letter }),
  }, mark(letter), `${words} `, el('b', {}, passed.totals ? number(sums[i]) : '–')));
  const unseen = [...changed.values()].filter(({ of }) => of.action === filter.action).length;
  legend.replaceChildren(...kinds, el('span.key', {}, el('span.duty', { 'aria-hidden': 'true' }),
    'with an obligation or advice'),
    ...(changed.size ? [el('button.kind', { type: 'button', 'aria-pressed': String(Boolean(filter.changed)),
      onclick: () => change({ changed: filter.changed ? '' : '1' }) },
    el('span.mark.new', { 'aria-hidden': 'true' }), 'Changed, unseen ', el('b', {}, number(unseen)))] : []));
}

/**
 * The names of a place of the picture.
 * @param {number} i @param {number} j @returns {[string, string, string]}
 */
function three(i, j) {
  const [p, r] = filter.turned ? [j, i] : [i, j];
  return [lists.people[passed.people[p]], filter.action, lists.resources[passed.resources[r]]];
}

/** @param {'people' | 'resources'} list @param {number} n */
const permits = (list, n) => (passed.totals ? number(passed.totals[list][n]?.[0] ?? 0) : '');

/** @param {'people' | 'resources'} list @param {number} n */
function openName(list, n) {
  const one = lists[list][passed[list][n]], at = filter.at;
  location.hash = list === 'people' ? address('person', { person: one, at }) : address('resource',
    { resource: one, at });
}

/**
 * What the grid is to draw.
 * @param {Letters} from @returns {import('./grid.js').Picture}
 */
function picture(from) {
  const [rows, columns] = /** @type {('people' | 'resources')[]} */ (filter.turned ? ['resources', 'people']
    : ['people', 'resources']);
  const isNow = !filter.at, text = (/** @type {List} */ list, /** @type {string} */ each) =>
    (list === 'people' ? whoLine(each, redraw) : each);
  const room = (/** @type {List} */ list) => (list === 'people' && desk.who.called ? 110 : 0);
  return {
    rows: passed[rows].length, columns: passed[columns].length,
    label: shown(`${filter.action}: ${rows} by ${columns}`), corner: rows === 'people' ? 'Person' : 'Resource',
    rowName: (i) => lists[rows][passed[rows][i]], columnName: (j) => lists[columns][passed[columns][j]],
    rowText: (i) => text(rows, lists[rows][passed[rows][i]]), rowRoom: room(rows),
    columnText: (j) => text(columns, lists[columns][passed[columns][j]]), columnRoom: room(columns),
    rowTotal: (i) => permits(rows, i), columnTotal: (j) => permits(columns, j),
    letter: (i, j) => from.at(i, j), hasChanges: () => isNow && changed.size > 0,
    isChanged: (i, j) => isNow && changed.size > 0 && changed.has(keyOf(...three(i, j))),
    names: (i, j) => three(i, j).join(', '),
    opens: (i, j) => open(...three(i, j)), opensRow: (i) => openName(rows, i), opensColumn: (j) => openName(columns, j),
  };
}

/**
 * Opens a cell at the side, and says it in the address.
 * @param {string} person @param {string} action @param {string} resource
 */
async function open(person, action, resource) {
  filter = { ...filter, person, resource };
  history.replaceState(null, '', address('table', filter));
  await openCell(person, action, resource, filter.at, () => {
    filter = { ...filter, person: '', resource: '' };
    history.replaceState(null, '', address('table', filter));
    grid?.cell.focus({ preventScroll: true });
  });
  redraw();
}

/**
 * The place of a cell in the picture.
 * @param {string} person @param {string} resource
 */
function placeOf(person, resource) {
  const place = (/** @type {'people' | 'resources'} */ list, /** @type {string} */ name) =>
    passed[list].indexOf(lists.places[list].get(name) ?? -1);
  const both = [place('people', person), place('resources', resource)];
  return filter.turned ? both.reverse() : both;
}

/** The lists changed: the same filters pass others, and the mark stays at its names. */
export async function renew() {
  if (filter.at) return;
  const names = grid && passed.people.length && passed.resources.length ? three(grid.row, grid.column) : null;
  const hasFocus = grid !== null && document.activeElement === grid.cell;
  lists = desk.lists;
  forgetValues();
  await apply().catch(tell);
  const now = /** @type {Grid | null} */ (grid);
  if (!now || !names) return;
  const [row, column] = placeOf(names[0], names[2]);
  if (row >= 0 && column >= 0) now.go(row, column);
  if (hasFocus) now.cell.focus({ preventScroll: true });
}

/** Draws what passes. */
function drawFrame() {
  const old = grid && { row: grid.row, column: grid.column, x: grid.scroller.scrollLeft, y: grid.scroller.scrollTop };
  grid?.end();
  letters?.end();
  grid = null;
  foot.textContent = `${plural(passed.people.length, 'person', 'people')} by ${plural(passed.resources.length,
    'resource')}`;
  if (!passed.people.length || !passed.resources.length) {
    frame.replaceChildren(el('p.empty', {}, 'Nothing passes these filters. Clear shows all again.'));
    return;
  }
  const axes = { people: { list: /** @type {List} */ ('people'), places: passed.people },
    resources: { list: /** @type {List} */ ('resources'), places: passed.resources } };
  const [rows, columns] = filter.turned ? [axes.resources, axes.people] : [axes.people, axes.resources];
  letters = new Letters({ action: filter.action }, rows, columns, Boolean(filter.turned), filter.at, (problem) => {
    if (problem) tell(problem);
    else redraw();
  });
  grid = new Grid(frame, picture(letters));
  const [row, column] = placeOf(filter.person, filter.resource);
  if (row >= 0 && column >= 0 && !old) Object.assign(grid, { row, column });
  if (old) {
    grid.scroller.scrollLeft = old.x;
    grid.scroller.scrollTop = old.y;
    grid.row = Math.min(old.row, rows.places.length - 1);
    grid.column = Math.min(old.column, columns.places.length - 1);
  }
  Object.assign(window, { desk: { grid, letters } });
}

/** Takes the filters as they are now. */
async function apply() {
  turn += 1;
  const now = turn;
  if (isPlain(filter)) {
    const { people, resources } = lists;
    passed = { people: people.map((_, i) => i), resources: resources.map((_, i) => i), totals: null,
      serial: lists.serial };
    drawFrame();
    drawLegend();
    const told = await counted(filter, lists, passed.people, passed.resources);
    if (now !== turn) return;
    passed = { ...passed, totals: told.totals, serial: told.serial };
  } else {
    const told = await passing(filter);
    if (now !== turn) return;
    passed = told;
    drawFrame();
  }
  drawLegend();
  redraw();
}

function redraw() {
  grid?.draw();
  grid?.place();
}

/** @param {HTMLElement} place @param {URLSearchParams} query @param {() => boolean} isOpen */
export async function show(place, query, isOpen) {
  filter = Object.fromEntries(KEYS.map((key) => [key, query.get(key) ?? '']));
  lists = await listsAt(filter.at);
  if (!isOpen()) return;
  filter.action ||= lists.actions[0] ?? '';
  frame = el('div.frame');
  legend = el('div.legend');
  foot = el('span.sum');
  const top = makeBar();
  place.replaceChildren(top, ...(filter.at ? [el('p.then', {}, `As it was on ${filter.at}.`)] : []), legend, frame,
    el('p.keys', { id: 'keys' }, foot, 'Arrows move, Enter tells why, / finds, a name opens its page.'));
  if (!lists.actions.length) {
    frame.append(el('p.empty', {}, 'No actions are listed yet.'));
    return;
  }
  grid = null;
  const done = apply();
  drawBar(top).catch(tell);
  if (filter.person && filter.resource) {
    openCell(filter.person, filter.action, filter.resource, filter.at,
      () => { filter = { ...filter, person: '', resource: '' }; });
  }
  await done;
}

let wait = 0;

/**
 * An edit changed cells: those in sight are drawn at once by what was told, margins are asked again a moment later.
 * @param {Change[]} changes @param {number} serial
 */
export function told(changes, serial) {
  if (filter.at || !letters || !grid) return;
  const places = { people: new Map(passed.people.map((place, n) => [place, n])),
    resources: new Map(passed.resources.map((place, n) => [place, n])) };
  const all = changes.filter((each) => each.action === filter.action).flatMap((each) => {
    const p = places.people.get(lists.places.people.get(each.person) ?? -1);
    const r = places.resources.get(lists.places.resources.get(each.resource) ?? -1);
    if (p === undefined || r === undefined || each.after === null) return [];
    const letter = letterOf(each.after);
    count(p, r, each);
    return [filter.turned ? { row: r, column: p, letter } : { row: p, column: r, letter }];
  });
  letters.take(all, serial);
  forgetValues();
  drawLegend();
  redraw();
  clearTimeout(wait);
  wait = window.setTimeout(recount, 400);
}

/**
 * Moves a cell from one count to another.
 * @param {number} p @param {number} r @param {Change} change
 */
function count(p, r, { before, after }) {
  if (!passed.totals || before === null || after === null || filter.rule) return;
  for (const counts of [passed.totals.people[p], passed.totals.resources[r]]) {
    counts[kindOf(letterOf(before))] -= 1;
    counts[kindOf(letterOf(after))] += 1;
  }
}

/** Asks the margins again: several edits may have come between them. */
async function recount() {
  const now = turn;
  if (filter.at || !passed.people.length || !passed.resources.length) return;
  const again = await counted(filter, lists, passed.people, passed.resources).catch(() => null);
  if (again === null || now !== turn) return;
  passed = { ...passed, totals: again.totals, serial: again.serial };
  drawLegend();
  redraw();
}

/** What is shown, as rows of text: who of those that pass may do it to what. */
export async function sheet() {
  const { sheetOf } = await import('./tablesheet.js');
  return sheetOf(filter, lists, passed);
}
