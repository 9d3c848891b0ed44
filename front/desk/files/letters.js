// The letters of a picture: rows by columns with one name fixed, each axis a list of places. What isn't there yet is
// asked
// for in blocks, what is in sight first.
import { grid, some } from './front.js';

const ROWS = 64, COLUMNS = 256, AT_ONCE = 3;

/** @typedef {{list: List, places: number[]}} Axis */

/**
 * The block in which a place is.
 * @param {number} row @param {number} column
 */
const blockOf = (row, column) => `${Math.floor(row / ROWS)} ${Math.floor(column / COLUMNS)}`;

export class Letters {
  /**
   * @param {Part} fixed what is named @param {Axis} rows @param {Axis} columns @param {boolean} isTurned
   * @param {string} at @param {(fault?: Error) => void} came
   */
  constructor(fixed, rows, columns, isTurned, at, came) {
    this.fixed = fixed;
    this.rows = rows;
    this.columns = columns;
    this.isTurned = isTurned;
    this.moment = at;
    this.came = came;
    /** @type {Map<string, {rows: string[], serial: number}>} */
    this.blocks = new Map();
    /** @type {Set<string>} */
    this.asking = new Set();
    /** @type {string[]} */
    this.waiting = [];
    this.asked = 0;
    /**
     * What was told since the picture was begun.
     * @type {{row: number, column: number, letter: string, serial: number}[]}
     */
    this.told = [];
    this.isOver = false;
  }

  /**
   * The letter at a place of the picture; nothing while it isn't known.
   * @param {number} row @param {number} column
   */
  at(row, column) {
    const key = blockOf(row, column), block = this.blocks.get(key);
    if (block === undefined) {
      this.want(key);
      return '';
    }
    return block.rows[row % ROWS]?.[column % COLUMNS] ?? '';
  }

  /**
   * Asks for a block, the newest wish first.
   * @param {string} key
   */
  want(key) {
    if (this.asking.has(key)) return;
    const place = this.waiting.indexOf(key);
    if (place >= 0) this.waiting.splice(place, 1);
    this.waiting.push(key);
    this.go();
  }

  go() {
    while (this.asking.size < AT_ONCE && this.waiting.length && !this.isOver) {
      const key = /** @type {string} */ (this.waiting.pop());
      this.asking.add(key);
      this.ask(key);
    }
    if (this.waiting.length > 12) this.waiting.splice(0, this.waiting.length - 12);
  }

  /**
   * Some places of an axis.
   * @param {Axis} axis @param {number} n @param {number} size
   */
  static part(axis, n, size) { return some(axis.places.slice(n * size, (n + 1) * size)); }

  /** @param {string} key */
  async ask(key) {
    const [row, column] = key.split(' ').map(Number);
    try {
      const told = await grid({
        ...this.fixed,
        [this.rows.list]: Letters.part(this.rows, row, ROWS),
        [this.columns.list]: Letters.part(this.columns, column, COLUMNS),
      }, this.moment);
      this.asking.delete(key);
      if (this.isOver) return;
      this.blocks.set(key, { rows: this.isTurned ? turned(told.rows) : told.rows, serial: told.serial });
      this.asked += 1;
      for (const each of this.told) if (each.serial > told.serial) this.set(each.row, each.column, each.letter,
        each.serial);
      this.came();
    } catch (fault) {
      this.asking.delete(key);
      if (!this.isOver) this.came(/** @type {Error} */ (fault));
    }
    this.go();
  }

  /**
   * Takes a letter that was told as of a serial; a block that is newer has it already.
   * @param {number} row @param {number} column @param {string} letter @param {number} serial
   */
  set(row, column, letter, serial) {
    const block = this.blocks.get(blockOf(row, column));
    if (!block || block.serial >= serial) return;
    const line = block.rows[row % ROWS], at = column % COLUMNS;
    block.rows[row % ROWS] = line.slice(0, at) + letter + line.slice(at + 1);
  }

  /**
   * Takes what an edit changed, drawn at once by its decision; whether there are obligations isn't told, so blocks in
   * which something changed are asked again.
   * @param {{row: number, column: number, letter: string}[]} all @param {number} serial
   */
  take(all, serial) {
    const keys = new Set();
    for (const each of all) {
      this.told.push({ ...each, serial });
      this.set(each.row, each.column, each.letter, serial);
      if ('PD'.includes(each.letter)) keys.add(blockOf(each.row, each.column));
    }
    if (this.told.length > 20000) this.told.splice(0, this.told.length - 20000);
    for (const key of keys) if (this.blocks.has(key) || this.asking.has(key)) this.again(key);
  }

  /**
   * Asks a block again; until it comes it stays as it is.
   * @param {string} key
   */
  again(key) {
    if (this.asking.has(key)) setTimeout(() => this.again(key), 50);
    else if (!this.isOver) this.want(key);
  }

  end() { this.isOver = true; }
}

/**
 * Rows as columns.
 * @param {string[]} rows
 */
function turned(rows) {
  const width = rows[0]?.length ?? 0;
  return Array.from({ length: width }, (_, i) => rows.map((row) => row[i]).join(''));
}
