// Words and small elements. Names and values become text nodes alone.

/** The decisions by their letters. */
export const DECISIONS = /** @type {Record<string, string>} */ ({
  P: 'Permit', D: 'Deny', N: 'Not applicable', 1: 'Indeterminate (would permit)', 2: 'Indeterminate (would deny)',
  3: 'Indeterminate (either)',
});

const LETTERS = /** @type {Record<string, string>} */ ({
  Permit: 'P', Deny: 'D', NotApplicable: 'N', 'Indeterminate{P}': '1', 'Indeterminate{D}': '2',
    'Indeterminate{DP}': '3',
});

/** @param {number} n */
export const number = (n) => n.toLocaleString('en-US');

/** @param {number} n @param {string} one @param {string} [many] */
export const plural = (n, one, many = `${one}s`) => `${number(n)} ${n === 1 ? one : many}`;

/**
 * The letter of a decision; nothing where the request isn't listed.
 * @param {string | null} decision
 */
export const letterOf = (decision) => (decision === null ? '' : LETTERS[decision] ?? '3');

/**
 * A decision in words.
 * @param {string | null} decision
 */
export const wordsOf = (decision) => (decision === null ? 'Not listed' : DECISIONS[letterOf(decision)]);

/**
 * Which of four counts a letter is in: Permit, Deny, not applicable, Indeterminate.
 * @param {string} letter
 */
export const kindOf = (letter) => ({ P: 0, D: 1, N: 2 }[letter.toUpperCase()] ?? 3);

/**
 * The last word of a URI.
 * @param {unknown} uri
 */
export const tail = (uri) => String(uri).split(/[:#]/).pop() ?? '';

/**
 * Joins names by commas, the last by `and`.
 * @param {string[]} names
 */
export const listed = (names) => (names.length < 2 ? names.join('')
  : `${names.slice(0, -1).join(', ')} and ${names[names.length - 1]}`);

const INVISIBLE = /(?! )[\p{C}\p{Z}\p{DI}]/gu;

/**
 * A text as a reader can tell it from others: what can't be seen, or turns the writing, is named.
 * @param {unknown} text
 */
export function shown(text) {
  const code = (/** @type {string} */ letter) => (letter.codePointAt(0) ?? 0).toString(16).toUpperCase().padStart(4,
    '0');
  return String(text).replace(INVISIBLE, (letter) => `⟨${code(letter)}⟩`).replace(/^ | $|(?<= ) /g, '⟨0020⟩');
}

/**
 * An element: el('p.quiet', {title: ..}, child, ..). A child that is a string becomes a text; none, false and null are
 * left out. Attributes that begin with `on` are listeners.
 * @param {string} kind @param {Record<string, any>} [attributes] @param {...any} children @returns {any}
 */
export function el(kind, attributes = {}, ...children) {
  const [tag, ...classes] = kind.split('.');
  const made = document.createElement(tag);
  if (classes.length) made.className = classes.join(' ');
  for (const [key, value] of Object.entries(attributes)) {
    if (key.startsWith('on')) made.addEventListener(key.slice(2), value);
    else if (value === true) made.setAttribute(key, '');
    else if (value !== false && value !== null && value !== undefined) made.setAttribute(key, String(value));
  }
  made.append(...children.flat(Infinity).filter((child) => child !== null && child !== undefined && child !== false)
    .map((child) => (child instanceof Node ? child : fence(child))));
  return made;
}

/**
 * A text of ours or of others as a node: blanks between words of ours stay.
 * @param {unknown} child
 */
const fence = (child) => String(child).replace(INVISIBLE, shown);

/**
 * A name or a value of others, as a text.
 * @param {unknown} text
 */
export const name = (text) => document.createTextNode(shown(text));

/**
 * An element of the page.
 * @param {string} id @returns {any}
 */
export const field = (id) => document.getElementById(id);

/**
 * Says something to who listens to the page.
 * @param {string} text
 */
export const say = (text) => { field('spoken').textContent = text; };

/**
 * A decision's mark: its letter in its form. Where no word stands beside it, it has one for who can't see it.
 * @param {string} letter @param {boolean} [isAlone]
 */
export function mark(letter, isAlone = false) {
  const upper = letter.toUpperCase();
  const kind = /** @type {Record<string, string>} */ ({ P: 'permit', D: 'deny', N: 'none', '': 'gone' })[
    upper] ?? 'fault';
  const sign = /** @type {Record<string, string>} */ ({ permit: 'P', deny: 'D', none: '·', gone: '–', fault: '?' })[
    kind];
  const words = isAlone ? { role: 'img', 'aria-label': DECISIONS[upper] ?? 'Not listed' } : { 'aria-hidden': 'true' };
  return el(`span.mark.${kind}`, words, sign);
}

/**
 * A decision's mark and its word.
 * @param {string | null} decision
 */
export const decided = (decision) => el('span.decided', {}, mark(letterOf(decision)), wordsOf(decision));

/**
 * The address of a view.
 * @param {string} view @param {Record<string, any>} [query]
 */
export function address(view, query = {}) {
  const given = Object.entries(query).filter(([, value]) => value !== '' && value !== null && value !== undefined);
  const words = new URLSearchParams(given.map(([key, value]) => [key, String(value)])).toString();
  return `#${view}${words ? `?${words}` : ''}`;
}

/**
 * A link to a view.
 * @param {string} view @param {Record<string, any>} query @param {...any} words
 */
export const link = (view, query, ...words) => el('a', { href: address(view, query) }, ...words);

/**
 * A moment as a reader reads it.
 * @param {string | Date} time
 */
export function moment(time) {
  const at = new Date(time), two = (/** @type {number} */ n) => String(n).padStart(2, '0');
  return `${at.getFullYear()}-${two(at.getMonth() + 1)}-${two(at.getDate())} ${two(at.getHours())}:${two(
    at.getMinutes())}`;
}

/**
 * A day, so many days ago.
 * @param {number} days
 */
export const daysAgo = (days) => moment(new Date(Date.now() - days * 86400000)).slice(0, 10);

/**
 * The first few of some names, each as it is made, and how many more there are. A click shows all.
 * @param {string[]} names @param {(name: string) => any} make @param {number} [most]
 */
export function few(names, make, most = 12) {
  const made = el('span.names', {}, names.slice(0, most).map((each) => el('span', {}, make(each))));
  if (names.length <= most) return made;
  const more = el('button.link', { type: 'button', onclick: () => {
    made.replaceChildren(...names.map((each) => el('span', {}, make(each))));
  } }, `and ${number(names.length - most)} more`);
  made.append(' ', more);
  return made;
}

/**
 * A table with heads; a row is a list of cells, or an element. Columns whose head begins with `#` are numbers.
 * @param {string[]} heads @param {any[]} rows @param {string} [label]
 */
export function tableOf(heads, rows, label) {
  const isNumber = heads.map((head) => head.startsWith('#'));
  const cells = (/** @type {any[]} */ row) => row.map((cell, i) => el(isNumber[i] ? 'td.n' : 'td', {}, cell));
  return el('table.list', { 'aria-label': label },
    el('thead', {}, el('tr', {}, heads.map((head, i) =>
      el(isNumber[i] ? 'th.n' : 'th', { scope: 'col' }, head.replace('#', ''))))),
    el('tbody', {}, rows.map((row) => (row instanceof Node ? row : el('tr', {}, cells(row))))));
}
