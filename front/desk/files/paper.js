// A view on paper, and as a file: rows of text under a head that says what was asked, as of when, and by whom.
import { desk } from './state.js';
import { record } from './ask.js';
import { el, field, number, shown, tableOf } from './words.js';

/**
 * The view that is open.
 * @type {{view: View | null}}
 */
export const opened = { view: null };

/**
 * The SHA-256 that the front says of an answer, as `sha256sum` writes it.
 * @param {string} digest
 */
export function hexOf(digest) {
  const found = /sha-256=([^,]+)/.exec(digest);
  if (!found) return 'not said';
  return [...atob(found[1])].map((letter) => letter.charCodeAt(0).toString(16).padStart(2, '0')).join('');
}

/** A moment with its zone, so that a reader elsewhere knows it. */
const now = () => new Date().toISOString().replace('T', ' ').replace(/\..*/, ' UTC');

/** @param {Sheet} sheet @returns {[string, any][]} */
function headOf(sheet) {
  const asked = [...record.values()].filter((each) => each.digest);
  const serials = [...new Set(asked.map((each) => each.serial).filter(Boolean))];
  return [
    ['What', sheet.title], ['Only', sheet.filter.join('; ') || 'all'],
      ['Serial', serials.join(', ') || String(desk.serial)],
    ['Printed', `${now()} by ${desk.who.name}`], ['Rows', number(sheet.rows.length)],
    ['Asked', el('ul', {}, asked.map((each) => el('li', {}, decodeURIComponent(each.path.replace(/\+/g, ' ')),
      el('span.sum256', {}, ` SHA-256 ${hexOf(each.digest)}`))))],
  ];
}

/** @param {Error} fault */
function tell(fault) {
  field('spoken').textContent = fault.message;
  field('view').prepend(el('p.fault', { role: 'alert' }, `This can’t be printed: ${fault.message}.`));
}

/**
 * Lays the view out on paper.
 * @param {Sheet} sheet
 */
export function layOut(sheet) {
  const plain = (/** @type {string | number} */ cell) => (typeof cell === 'number' ? number(cell) : shown(cell));
  field('paper').replaceChildren(el('h1', {}, shown(sheet.title)),
    el('dl', {}, headOf(sheet).map(([key, value]) => [el('dt', {}, key), el('dd', {}, value)])),
    tableOf(sheet.heads, sheet.rows.map((row) => row.map(plain))),
    (sheet.notes ?? []).map((note) => el('p', {}, note)));
}

/** What is open, as a sheet. */
async function sheetOfView() {
  const sheet = await opened.view?.sheet?.();
  if (!sheet) throw new Error('this view has no rows');
  return sheet;
}

export async function printView() {
  try {
    layOut(await sheetOfView());
    window.print();
  } catch (fault) { tell(/** @type {Error} */ (fault)); }
}

/**
 * A field of a file of comma-separated values (RFC 4180); one that a spreadsheet would take for a formula is a text.
 * @param {string | number} value
 */
export function csvField(value) {
  const text = typeof value === 'string' && /^[=+\-@\t\r]/.test(value) ? `'${value}` : String(value);
  return /[",\r\n]/.test(text) ? `"${text.replaceAll('"', '""')}"` : text;
}

/** @param {Sheet} sheet */
export const csvOf = (sheet) => [sheet.heads.map((head) => head.replace('#', '')), ...sheet.rows]
  .map((row) => `${row.map(csvField).join(',')}\r\n`).join('');

/**
 * Gives a file to who reads the page.
 * @param {Blob} file @param {string} name
 */
export function saveFile(file, name) {
  const to = URL.createObjectURL(file);
  el('a', { href: to, download: name }).click();
  setTimeout(() => URL.revokeObjectURL(to), 60000);
}

export async function saveView() {
  try {
    const sheet = await sheetOfView(), file = new Blob([csvOf(sheet)], { type: 'text/csv;charset=utf-8' });
    saveFile(file, `${sheet.title.replace(/[^\w]+/g, '-').toLowerCase()}.csv`);
  } catch (fault) { tell(/** @type {Error} */ (fault)); }
}
