// Findings: who may both, who has something alone, causes of Indeterminate, rules that never decide.
import { alone, causes, faults, rules, unknown } from './front.js';
import { valuesOf } from './filters.js';
import { address, el, few, link, name, number, plural, shown, tableOf, tail, wordsOf } from './words.js';
import { asOf, bar, labelled, menu, printing } from './bar.js';
import { causeWords, pathWords } from './cell.js';
import { gathered, holderOf } from './made.js';
import { cellLink, ruleLink } from './known.js';
import { both } from './both.js';
import { who } from './called.js';

export const title = 'Findings', needs = ['names'];

/** @typedef {{made: any[], paper: Sheet | null}} Found */

/** @type {Sheet | null} */
let paper = null;
let what = '', at = '';

const KINDS = [['both', 'Who may both'], ['alone', 'Who alone'], ['causes', 'No answer, and why'],
  ['idle', 'Rules that never decide']];

/** @param {Record<string, any>} more */
const go = (more) => { location.hash = address('findings', { what, at, ...more }); };

/** @param {...any} words */
const lead = (...words) => el('p.lead', { role: 'status' }, words);

/**
 * The resources of cells that have all else in common, each as a link to its cell.
 * @param {{person: string, action: string, resource: string}[]} group
 */
const resourcesOf = (group) => few(group.map(({ resource }) => resource), (resource) =>
  cellLink(group[0].person, group[0].action, resource, at, name(resource)));

/** @param {string} person */
const personLink = (person) => link('person', { person, at }, who(person));

/**
 * By which attribute, said by whom, people are grouped.
 * @param {Heading} heading
 */
const groupKey = ({ attribute, datatype, issuer }) => JSON.stringify([attribute, datatype, issuer]);

/**
 * The fields of who has something alone.
 * @param {Heading[]} headings @param {string} key @param {number} below
 */
const aloneFields = (headings, key, below) => el('div.fields', {},
  menu('of', 'Of the same', headings.map((each) => [groupKey(each), shown(tail(each.attribute))]), key,
    (of) => go({ of, below })),
  labelled('Fewer than', el('input', { type: 'number', name: 'below', min: 1, size: 4, value: below,
    onchange: (/** @type {any} */ event) => go({ of: key, below: event.target.value }) })));

/**
 * Who has something that few of the same value have.
 * @param {URLSearchParams} query @returns {Promise<Found>}
 */
async function lonely(query) {
  const headings = unknown.has('alone') ? [] : await valuesOf('people', at);
  const none = { made: [el('p', {}, 'This service doesn’t tell who has something alone.')], paper: null };
  if (!headings.length) return none;
  const likely = headings.find((each) => tail(each.attribute) === 'department') ?? headings[0];
  const key = query.get('of') ?? groupKey(likely), below = Number(query.get('below') ?? 2);
  const [attribute, type, issuer] = JSON.parse(key), told = await alone({ attribute, type, issuer, below }, 1000, at);
  const groups = gathered(told.alone, ({ person, action }) => JSON.stringify([person, action]));
  const heads = ['Person', 'Action', 'Resources', '#Cells'], first = told.alone.length;
  return {
    made: [aloneFields(headings, key, below),
      lead(`${plural(told.total, 'Permit')} that fewer than ${number(below)} of the same ${tail(attribute)} have`,
        told.total > first ? `; the first ${number(first)} are here.` : '.'),
      tableOf(heads, groups.map((group) =>
        [personLink(group[0].person), name(group[0].action), resourcesOf(group), number(group.length)]), 'Who alone')],
    paper: { title: `Who has what fewer than ${below} of the same ${tail(attribute)} have`, filter: [], heads,
      rows: groups.map((group) => [group[0].person, group[0].action,
        group.map(({ resource }) => resource).join(', '), group.length]) },
  };
}

/**
 * The cells that have a fault, where the service can't gather their causes.
 * @returns {Promise<Found>}
 */
async function faultCells() {
  const all = await faults(at), heads = ['Person', 'Action', 'Decision', 'Resources', '#Cells'];
  const groups = gathered(all, ({ person, action, decision }) => JSON.stringify([person, action, decision]));
  return {
    made: [lead(`${plural(all.length, 'cell')} with a fault on the way. A resource tells why.`),
      tableOf(heads, groups.map((group) => [personLink(group[0].person), name(group[0].action),
        wordsOf(group[0].decision), resourcesOf(group), number(group.length)]), 'Cells with a fault')],
    paper: { title: 'Cells with a cause of Indeterminate', filter: [], heads,
      rows: groups.map((group) => [group[0].person, group[0].action, wordsOf(group[0].decision),
        group.map(({ resource }) => resource).join(', '), group.length]) },
  };
}

/**
 * Why there is no answer, each cause once.
 * @returns {Promise<Found>}
 */
async function noAnswer() {
  const told = await causes(at).catch((fault) => {
    if (unknown.has('causes')) return null;
    throw fault;
  });
  if (told === null) return faultCells();
  const all = told.sort((a, b) => b.indeterminate - a.indeterminate || b.cells - a.cells);
  const sum = all.reduce((count, each) => count + each.indeterminate, 0);
  const firstOf = (/** @type {CauseCount['first']} */ { person, action, resource }) =>
    `${person}, ${action}, ${resource}`;
  const row = (/** @type {CauseCount} */ { cause, cells, indeterminate, first }) => [
    [el('div', {}, name(causeWords(cause))), el('div.quiet', {}, name(pathWords(cause)))], number(cells),
    number(indeterminate), cellLink(first.person, first.action, first.resource, at, name(firstOf(first)))];
  return {
    made: [lead(`${plural(all.length, 'cause leaves', 'causes leave')} ${plural(sum, 'cell')} without an answer.`),
      tableOf(['Cause', '#Cells', '#Indeterminate', 'The first'], all.map(row), 'Causes')],
    paper: { title: 'Why cells have no answer', filter: [],
      heads: ['Cause', 'Where', '#Cells', '#Of these Indeterminate', 'First'],
      rows: all.map(({ cause, cells, indeterminate, first }) =>
        [causeWords(cause), pathWords(cause), cells, indeterminate, firstOf(first)]) },
  };
}

/**
 * Rules that never decide.
 * @returns {Promise<Found>}
 */
async function idle() {
  const all = (await rules(at)).filter((rule) => rule.rule !== null), none = all.filter((rule) => rule.cells === 0);
  return {
    made: [lead(`${number(none.length)} of ${plural(all.length, 'rule')} decide no cell of the table.`),
      tableOf(['Rule', 'Document'], none.map((rule) =>
        [ruleLink(rule, at), link('document', { id: holderOf(rule), at }, name(holderOf(rule)))]),
      'Rules that never decide')],
    paper: { title: 'Rules that never decide', filter: [], heads: ['Rule', 'Policy', 'Path'],
      rows: none.map((rule) => [rule.rule ?? '', holderOf(rule), pathWords(rule)]) },
  };
}

/** @param {HTMLElement} place @param {URLSearchParams} query @param {() => boolean} isOpen */
export async function show(place, query, isOpen) {
  [what, at, paper] = [query.get('what') ?? 'both', query.get('at') ?? '', null];
  const makers = /** @type {Record<string, () => Promise<Found>>} */ ({
    alone: () => lonely(query), causes: noAnswer, idle, both: () => both(query, at, go),
  });
  const kinds = el('p.kinds', {}, KINDS.map(([key, words]) =>
    el('a', { href: address('findings', { what: key, at }), 'aria-current': key === what && 'page' }, words)));
  const body = el('div', {}, el('p.quiet', {}, 'Reading ..'));
  place.replaceChildren(bar(asOf(at, (day) => go({ at: day })), printing()),
    ...(at ? [el('p.then', {}, `As it was on ${at}.`)] : []), el('div.page', {}, kinds, body));
  const found = await (makers[what] ?? makers.both)();
  if (!isOpen()) return;
  paper = found.paper;
  body.replaceChildren(el('div', {}, found.made));
}

/** @returns {Sheet | null} */
export const sheet = () => (paper && { ...paper, filter: [...paper.filter, ...(at ? [`as it was on ${at}`] : [])] });
