// What if: an edit is first tried, and what it would change is told; only then it can be made, if nothing was edited
// since.
import { check, make, trial } from './trying.js';
import { desk, may } from './state.js';
import { address, el, name, number, plural, tail } from './words.js';
import { labelled } from './bar.js';
import { editWords } from './editwords.js';
import { MOVE_HEADS, moveRows, movesOf, sorted } from './moves.js';

export const title = 'Try an edit', needs = ['attr.set'];

const TYPES = ['string', 'boolean', 'integer', 'double', 'date', 'time', 'dateTime', 'anyURI'];
const KINDS = [['value', 'A value'], ['day', 'The day'], ['policy', 'A policy']];

/** @type {Record<string, string>} */
let given = {};
/** @type {Change[]} */
let changes = [];
let words = '';
/** @type {HTMLElement} */
let result;

/** @param {string} key @param {string} label @param {Record<string, any>} [more] */
const input = (key, label, more = {}) => labelled(label,
  el('input', { name: key, value: given[key] ?? '', autocomplete: 'off', ...more }));

/**
 * Values as they are typed: one, several with commas, or a list in JSON.
 * @param {string} text @param {string} type
 */
export function valuesIn(text, type) {
  if (text.trim() === '') return [];
  if (text.trim().startsWith('[')) return JSON.parse(text);
  const parts = text.split(',').map((each) => each.trim());
  if (type === 'boolean') return parts.map((part) => part === 'true' || (part === 'false' ? false : part));
  return type === 'integer' ? parts.map((part) => (/^-?\d{1,15}$/.test(part) ? Number(part) : part)) : parts;
}

/**
 * Values as they can be typed again.
 * @param {string} json
 */
function typed(json) {
  if (!json) return '';
  const values = JSON.parse(json).map(String);
  return values.some((/** @type {string} */ each) => /^\s|\s$|,|^\[/.test(each)) ? json : values.join(', ');
}

function valueFields() {
  const type = tail(given.type || 'string'), list = given.list || 'people';
  return [
    labelled('Of a', el('select', { name: 'list' }, [['people', 'person'], ['resources', 'resource'],
      ['actions', 'action']].map(([value, label]) =>
      el('option', { value, selected: value === list }, label)))),
    input('entity', 'Name', { list: 'entities', required: true }),
    el('datalist', { id: 'entities' }, [...desk.lists.people, ...desk.lists.resources].slice(0, 6000).map((value) =>
      el('option', { value }))),
    input('attribute', 'Attribute', { required: true }),
    labelled('Type', el('select', { name: 'type' }, [...new Set([...TYPES, type])].map((value) => el('option',
      { value, selected: value === type }, value)))),
    input('issuer', 'Said by', { placeholder: 'nobody named' }), input('module', 'Module',
      { inputmode: 'numeric', size: 3, placeholder: '0' }),
    labelled('New values', el('input', { name: 'values', value: typed(given.values ?? ''), placeholder: 'none',
      autocomplete: 'off', autofocus: true })),
  ];
}

/** @param {FormData} form */
const read = (form) => Object.fromEntries([...form].map(([key, value]) => [key, String(value)]));

const CATEGORIES = /** @type {Record<string, string>} */ ({ people: 'AccessSubject', resources: 'Resource',
  actions: 'Action' });

/**
 * The line of the edit that the form says.
 * @param {Record<string, string>} form @returns {any}
 */
function lineOf(form) {
  if (given.what === 'day') {
    return form.day.includes('T') ? { do: 'moment.set', moment: form.day } : { do: 'day.set', day: form.day || null };
  }
  if (given.what === 'policy') {
    const line = { do: form.verb, document: JSON.parse(form.document) };
    return form.module ? { ...line, module: Number(form.module) } : line;
  }
  const type = (given.type ?? '').endsWith(form.type) ? given.type : form.type,
    line = { do: 'attr.set', category: CATEGORIES[form.list],
    entity: form.entity, attribute: form.attribute, type, values: valuesIn(form.values, form.type) };
  return { ...line, ...(form.issuer && { issuer: form.issuer }), ...(form.module && { module: Number(form.module) }) };
}

/**
 * What it would change.
 * @param {any} line @param {import('./trying.js').Tried} told @param {number} took
 */
function drawTrial(line, told, took) {
  changes = told.changes;
  words = editWords(line, line.do)[0];
  const { lost, gained } = told.counts, isEdit = may(line.do);
  const button = el('button.main', { type: 'button', onclick: () => doMake(line, told.serial, button) },
    'Make this edit');
  result.replaceChildren(el('h2', {}, name(`If ${words}`)), el('p.lead', { role: 'status' },
    `${plural(lost, 'Permit')} would be lost, ${
    number(gained)} gained, ${number(told.counts.other)} answers would be otherwise; ${
      number(told.counts.reasons)} would have other reasons only.`),
  el('p.acts', {}, isEdit ? button : null,
    el('span.quiet', {}, isEdit ? `It is made only if serial ${number(told.serial)} is still the newest. ` : '',
    took < 100 ? 'Tried in less than 0.1 s.' : `Tried in ${(took / 1000).toFixed(1)} s.`)),
  movesOf(changes), ...(told.more ? [el('p.quiet', {}, `and ${number(told.more)} more answers`)] : []));
}

/** @param {any} line @param {number} serial @param {any} button */
async function doMake(line, serial, button) {
  button.disabled = true;
  try {
    const told = await make(line, serial), since = told.serial - 1;
    result.replaceChildren(el('h2', {}, 'Made'), el('p.lead', { role: 'status' },
      `${words}: serial ${number(told.serial)}, ${plural(told.changes, 'answer')} changed.`),
    el('p', {}, el('a', { href: address('changes', { since }) }, 'What it changed')));
  } catch (problem) {
    const { status, message } = /** @type {any} */ (problem);
    result.prepend(el('p.fault', { role: 'alert' }, status === 412
      ? `Not made: somebody edited in between (${message}). Try it again.` : `Not made: ${message}.`));
  }
}

/**
 * The faults of a policy's text, each at its line.
 * @param {import('./trying.js').Fault[]} faults @param {HTMLTextAreaElement} area
 */
const faultList = (faults, area) => el('ul.faults', { 'aria-label': 'Faults' },
  faults.map((fault) => el('li', {}, el('button.link', { type: 'button', onclick: () => {
  const before = area.value.split('\n').slice(0, Math.max(0, fault.line - 1)).join('\n').length
    + (fault.line > 1 ? 1 : 0);
  area.focus();
  area.setSelectionRange(before, before + (area.value.split('\n')[fault.line - 1]?.length ?? 0));
} }, fault.line ? `line ${number(fault.line)}` : 'the text'), ' ', name(fault.words))));

/** @param {Record<string, string>} form @param {HTMLElement} place */
async function tryIt(form, place) {
  result.replaceChildren(el('p.quiet', { role: 'status' }, 'Trying ..'));
  try {
    if (given.what === 'policy') {
      const faults = await check(form.document);
      if (faults.length) {
        result.replaceChildren(el('p.lead', { role: 'alert' },
          `It can’t be stored: ${plural(faults.length, 'fault')}.`),
          faultList(faults, /** @type {any} */ (place.querySelector('textarea'))));
        return;
      }
    }
    const started = performance.now(), line = lineOf(form);
    drawTrial(line, await trial(line), performance.now() - started);
  } catch (fault) { result.replaceChildren(el('p.fault', { role: 'alert' },
    `It can’t be tried: ${/** @type {Error} */ (fault).message}.`)); }
}

function fields() {
  if (given.what === 'day') return [labelled('The day, or the moment as 2026-12-01T09:00:00',
    el('input', { name: 'day', value: given.day ?? '', placeholder: 'not known', size: 32 }))];
  if (given.what !== 'policy') return valueFields();
  return [labelled('How', el('select', { name: 'verb' },
    [['policy.replace', 'in place of the one of its id and version'], ['policy.add', 'as a new one']]
    .filter(([verb]) => may(verb)).map(([value, label]) => el('option', { value, selected: value === given.verb },
      label)))),
  input('module', 'Module', { inputmode: 'numeric', size: 3, placeholder: '0' }),
  el('label.tall', {}, el('span', {}, 'Policy or policy set, in JSON'),
    el('textarea', { name: 'document', rows: 18, spellcheck: 'false', required: true }, given.document ?? ''))];
}

/** @param {HTMLElement} place @param {URLSearchParams} query */
export async function show(place, query) {
  given = { what: 'value', ...Object.fromEntries(query) };
  changes = [];
  words = '';
  result = el('div', { 'aria-live': 'polite' });
  const form = el('form.trial', { onsubmit: (/** @type {Event} */ event) => {
    event.preventDefault();
    tryIt(read(new FormData(form)), form);
  } }, el('p.kinds', {}, KINDS.filter(([key]) => key === 'value' || may(key === 'day' ? 'day.set'
    : 'policy.replace')).map(([key, label]) =>
    el('a', { href: address('try', { what: key }), 'aria-current': key === given.what && 'page' }, label))),
      el('div.fields', {}, fields()),
  el('p.acts', {}, el('button.main', { type: 'submit' }, 'Try it'),
    el('span.quiet', {}, 'Nothing is kept by a trial.')));
  place.replaceChildren(el('div.page', {}, el('h1', {}, title), form, result));
}

/** Other names are no reason to lose what was typed and tried. */
export const renew = () => {};

/** @returns {Sheet | null} */
export const sheet = () => (words ? { title: `If ${words}`, filter: [], heads: MOVE_HEADS, rows: moveRows(changes) }
  : null);
