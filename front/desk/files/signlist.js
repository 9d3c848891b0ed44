// The rows of a reviewer's list, of which one has the mark.
import { el, name, number, plural, shown } from './words.js';
import { STATES } from './reviewing.js';
import { who } from './called.js';

const SIGNS = /** @type {Record<string, string>} */ ({ open: '', fell: '!', kept: '✓', revoke: '✕', revoked: '✕',
  gone: '–', passed: '→' });
const WORDS = /** @type {Record<string, string>} */ ({ ...STATES, passed: 'passed on' });

/**
 * The rules that give a group, by their names.
 * @param {ItemGroup} group
 */
export const rulesIn = ({ why }) => (why.length ? why.map((entry) => entry.rule ?? 'by default').join(', ')
  : 'no rule');

/** @param {ItemGroup} group @returns {string[]} */
export const actionsOf = ({ items }) => [...new Set(items.map((each) => each.action))];

/** @param {ItemGroup} group @returns {string[]} */
export const resourcesOf = ({ items }) => [...new Set(items.map((each) => each.resource))];

/** @param {ListRow} row */
export const isToDo = (row) => row.state === 'open' || row.state === 'fell';

/** @param {string} state */
export const stateWords = (state) => WORDS[state] ?? state;

/**
 * The first few names as one text.
 * @param {string[]} names
 */
const some = (names) => names.slice(0, 3).map(shown).join(', ')
  + (names.length > 3 ? ` and ${number(names.length - 3)} more` : '');

/** How many rows are made at once: the others follow while nothing else happens. */
const AT_ONCE = 200;
/** How many rows stand together: what isn't in sight of these isn't laid out. */
const TOGETHER = 50;

/** A list of rows. Who is told that the mark moved shows the row at the side. */
export class SignList {
  /** @param {(row: ListRow) => void} moved @param {(event: KeyboardEvent) => void} key */
  constructor(moved, key) {
    this.moved = moved;
    /** @type {ListRow[]} */
    this.rows = [];
    this.at = 0;
    /** @type {{shows: string, made: HTMLElement}[]} the rows that are made, and what each shows */
    this.drawn = [];
    this.late = 0;
    this.box = el('div.items', { role: 'listbox', tabindex: 0, 'aria-label': 'What is to be signed', onkeydown: key });
  }

  /**
   * Shows other rows. Those that are as before stay.
   * @param {ListRow[]} rows @param {number} at
   */
  fill(rows, at) {
    this.rows = rows;
    this.at = Math.max(0, Math.min(rows.length - 1, at));
    while (this.drawn.length > rows.length) this.drawn.pop()?.made.remove();
    for (let i = 0; i < this.drawn.length; i += 1) this.draw(i);
    this.grow(Math.max(AT_ONCE, this.at + 1));
    this.mark();
  }

  /**
   * Makes rows up to a place, and those behind them later.
   * @param {number} until
   */
  grow(until) {
    clearTimeout(this.late);
    const from = this.drawn.length, last = Math.min(until, this.rows.length);
    for (let i = from; i < last; i += 1) {
      this.drawn.push({ shows: this.shows(i), made: this.made(i) });
      const part = Math.floor(i / TOGETHER);
      if (!this.box.children[part]) this.box.append(el('div.part', { role: 'presentation' }));
      this.box.children[part].append(this.drawn[i].made);
    }
    if (last < this.rows.length) this.late = window.setTimeout(() => this.grow(this.drawn.length + AT_ONCE));
  }

  /**
   * Whether a row is the first of its rules.
   * @param {number} i
   */
  isFirst(i) { return i === 0 || rulesIn(this.rows[i - 1].group) !== rulesIn(this.rows[i].group); }

  /**
   * All that is to be seen of a row, as a text.
   * @param {number} i
   */
  shows(i) {
    const { key, group, state, waits, fault } = this.rows[i];
    return JSON.stringify([key, group.digest, state, waits > 0, fault, this.isFirst(i), i === this.at]);
  }

  /** The row that has the mark. */
  get row() { return this.rows[this.at]; }

  /** @param {number} i */
  made(i) {
    const row = this.rows[i], { group, state } = row;
    return el(`div.item.${state}${this.isFirst(i) ? '.first' : ''}${row.waits ? '.waits' : ''}`, { role: 'option',
      id: `item${i}`, 'aria-selected': String(i === this.at), onclick: () => this.go(i) },
    el('span.sign', { 'aria-hidden': 'true' }, SIGNS[state]), el('span.who', {}, who(group.person)),
    el('span.rule', {}, name(rulesIn(group))), el('span.acts', {}, some(actionsOf(group))),
    el('span.res', {}, some(resourcesOf(group))), el('span.n', {}, plural(group.items.length, 'cell')),
    el('span.word', {}, row.fault ? 'not signed' : stateWords(state)));
  }

  /** @param {number} i */
  draw(i) {
    const old = this.drawn[i], shows = i in this.drawn ? this.shows(i) : '';
    if (!old || old.shows === shows) return;
    this.drawn[i] = { shows, made: this.made(i) };
    old.made.replaceWith(this.drawn[i].made);
  }

  /** @param {ListRow} row */
  drawRow(row) { this.draw(this.rows.indexOf(row)); }

  mark() {
    if (this.rows.length) this.box.setAttribute('aria-activedescendant', `item${this.at}`);
    else this.box.removeAttribute('aria-activedescendant');
  }

  /** @param {number} i */
  go(i) {
    if (!this.rows.length) return;
    const old = this.at;
    this.at = Math.max(0, Math.min(this.rows.length - 1, i));
    this.grow(Math.max(this.drawn.length, this.at + 1));
    this.draw(old);
    this.draw(this.at);
    this.mark();
    this.drawn[this.at].made.scrollIntoView({ block: 'nearest' });
    this.moved(this.row);
  }

  /** The place of the next row to do, behind the mark or else from the beginning; -1 where there is none. */
  next() {
    const behind = this.rows.findIndex((row, i) => i > this.at && isToDo(row));
    return behind >= 0 ? behind : this.rows.findIndex(isToDo);
  }
}

