// The line above a view: what can be chosen.
import { el } from './words.js';
import { printView, saveView } from './paper.js';

/** @param {...any} children */
export const bar = (...children) => el('form.bar', { onsubmit: (/** @type {Event} */ event) => event.preventDefault(),
  autocomplete: 'off' }, children);

/** @param {string} words @param {any} control */
export const labelled = (words, control) => el('label', {}, el('span', {}, words), control);

/** @param {string} name @param {string} words @param {[string, string][]} options @param {string} chosen
 * @param {(chosen: string) => void} choose */
export function menu(name, words, options, chosen, choose) {
  const all = options.some(([value]) => value === chosen) || !chosen ? options : [...options, [chosen, chosen]];
  return labelled(words, el('select', { name, onchange: (/** @type {any} */ event) => choose(event.target.value) },
    all.map(([value, text]) => el('option', { value, selected: value === chosen }, text))));
}

/**
 * A field in which a name is found as it is typed.
 * @param {string} words @param {string} value @param {(text: string) => void} find
 */
export const finding = (words, value, find) => labelled(words, el('input', {
  id: 'find', type: 'search', placeholder: 'part of a name  /', value,
  oninput: (/** @type {any} */ event) => find(event.target.value),
}));

/**
 * A name of a list, chosen by typing.
 * @param {string} words @param {string} value @param {string[]} names @param {(name: string) => void} choose
 */
export const choosing = (words, value, names, choose) => [
  labelled(words, el('input', { id: 'find', list: 'names', value, onchange: (/** @type {any} */ event) =>
    choose(event.target.value) })),
  el('datalist', { id: 'names' }, names.slice(0, 5000).map((name) => el('option', { value: name }))),
];

/** @param {string} at @param {(at: string) => void} choose */
export const asOf = (at, choose) => labelled('As of', el('input', { type: 'date', name: 'at', value: at,
  'aria-label': 'As of the end of a day', onchange: (/** @type {any} */ event) => choose(event.target.value) }));

/** The view on paper, and as a file. */
export const printing = () => el('span.ends', {},
  el('button', { type: 'button', onclick: printView }, 'Print'),
  el('button', { type: 'button', onclick: saveView }, 'CSV'));
