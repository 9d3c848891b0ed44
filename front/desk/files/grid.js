// A picture of decisions on a canvas of the size of the window: only what is seen is drawn and asked. What has the mark
// of
// the keyboard is a real element with role gridcell, with its row's and its column's head, so that a screen reader is
// told
// of one cell at a time.
import { el, DECISIONS, say, shown } from './words.js';
import { CELL, inks, sprites, Writer } from './draw.js';

/**
 * @typedef {{
 *   rows: number, columns: number, label: string, corner: string, rowName: (i: number) => string,
 *   columnName: (j: number) => string, rowTotal: (i: number) => string, columnTotal: (j: number) => string,
 *   letter: (i: number, j: number) => string, hasChanges: () => boolean, isChanged: (i: number, j: number) => boolean,
 *   names: (i: number, j: number) => string, opens: (i: number, j: number) => void,
 *   opensRow: (i: number) => void, opensColumn: (j: number) => void,
 *   rowText: (i: number) => string, columnText: (j: number) => string, rowRoom: number, columnRoom: number,
 * }} Picture
 * What is drawn of a name is its text, which may have more than the name, and then has as much more room.
 */

export class Grid {
  /** @param {HTMLElement} place @param {Picture} picture */
  constructor(place, picture) {
    this.picture = picture;
    this.row = this.column = 0;
    /** @type {{row: number, column: number} | null} */
    this.over = null;
    this.top = 96;
    this.left = 214;
    this.ratio = 0;
    this.frame = 0;
    this.took = 0;
    this.canvas = /** @type {HTMLCanvasElement} */ (el('canvas', { 'aria-hidden': 'true' }));
    this.space = el('div.space');
    this.cell = el('div.focus', { role: 'gridcell', tabindex: 0 });
    this.rowHead = el('div.unseen', { role: 'rowheader' });
    this.columnHead = el('div.unseen', { role: 'columnheader' });
    this.scroller = el('div.scroller', { role: 'grid', 'aria-label': picture.label, 'aria-describedby': 'keys' },
      this.space, this.canvas, el('div', { role: 'row' }, this.columnHead), el('div', { role: 'row' }, this.rowHead,
        this.cell));
    place.replaceChildren(this.scroller);
    this.brush = /** @type {CanvasRenderingContext2D} */ (this.canvas.getContext('2d', { alpha: false }));
    this.ink = inks();
    this.writer = new Writer(this.brush, this.ink);
    this.sprites = sprites(this.ink, 1);
    this.listen();
  }

  listen() {
    const { scroller, canvas } = this;
    scroller.addEventListener('scroll', () => this.soon());
    scroller.addEventListener('keydown', (/** @type {KeyboardEvent} */ event) => this.key(event));
    canvas.addEventListener('click', (event) => this.click(event));
    canvas.addEventListener('mousemove', (event) => this.hover(event));
    canvas.addEventListener('mouseleave', () => { this.over = null; this.soon(); });
    this.watcher = new ResizeObserver(() => this.layOut());
    this.watcher.observe(scroller);
    this.dark = matchMedia('(prefers-color-scheme: dark)');
    this.turn = () => { this.ratio = 0; this.layOut(); };
    this.dark.addEventListener('change', this.turn);
  }

  /** Ends it: another picture comes. */
  end() {
    this.watcher?.disconnect();
    if (this.turn) this.dark?.removeEventListener('change', this.turn);
    cancelAnimationFrame(this.frame);
  }

  /** Lays the picture out anew, as for another size of the window. */
  layOut() {
    const { scroller, space, canvas, picture } = this, ratio = window.devicePixelRatio || 1;
    if (this.ratio !== ratio) {
      this.ratio = ratio;
      this.ink = inks();
      this.sprites = sprites(this.ink, ratio);
      this.writer = new Writer(this.brush, this.ink);
    }
    this.measure();
    space.style.width = `${this.left + picture.columns * CELL}px`;
    space.style.height = `${this.top + picture.rows * CELL}px`;
    canvas.width = Math.round(scroller.clientWidth * ratio);
    canvas.height = Math.round(scroller.clientHeight * ratio);
    canvas.style.width = `${scroller.clientWidth}px`;
    canvas.style.height = `${scroller.clientHeight}px`;
    scroller.setAttribute('aria-rowcount', String(picture.rows + 1));
    scroller.setAttribute('aria-colcount', String(picture.columns + 1));
    this.draw();
    this.place();
  }

  soon() {
    this.frame ||= requestAnimationFrame(() => {
      this.frame = 0;
      this.draw();
    });
  }

  /** Makes room for names: as much as the longest takes, within bounds. */
  measure() {
    const { writer, picture, scroller, brush } = this;
    brush.setTransform(1, 0, 0, 1, 0, 0);
    const room = (/** @type {number} */ least, /** @type {number} */ all, /** @type {number} */ wanted) =>
      Math.round(Math.max(least, Math.min(all < 500 ? all * 0.45 : all / 3, wanted)));
    this.left = room(110, scroller.clientWidth, writer.longest(picture.rows, picture.rowName)
      + picture.rowRoom + 82);
    this.top = room(64, scroller.clientHeight, writer.longest(picture.columns, picture.columnName)
      + picture.columnRoom + 40);
  }

  /** What is in sight. */
  sight() {
    const { scroller, picture, top, left } = this;
    const { scrollLeft: x, scrollTop: y, clientWidth: width, clientHeight: height } = scroller;
    return {
      x, y, width, height, firstRow: Math.floor(y / CELL), firstColumn: Math.floor(x / CELL),
      lastRow: Math.min(picture.rows, Math.ceil((y + height - top) / CELL)),
      lastColumn: Math.min(picture.columns, Math.ceil((x + width - left) / CELL)),
      at: this.over ?? { row: this.row, column: this.column },
    };
  }

  draw() {
    const { brush, ink, ratio, top, left } = this, started = performance.now(), sight = this.sight();
    const { x, y, width, height, at } = sight;
    brush.setTransform(ratio, 0, 0, ratio, 0, 0);
    brush.fillStyle = ink.page;
    brush.fillRect(0, 0, width, height);
    brush.fillStyle = ink.here;
    brush.fillRect(0, top + at.row * CELL - y, width, CELL);
    brush.fillRect(left + at.column * CELL - x, 0, CELL, height);
    this.drawCells(sight);
    // The names stand over the cells.
    brush.fillStyle = ink.page;
    brush.fillRect(0, 0, left, height);
    brush.fillRect(0, 0, width, top);
    brush.fillStyle = ink.here;
    brush.fillRect(0, top + at.row * CELL - y, left, CELL);
    brush.fillRect(left + at.column * CELL - x, 0, CELL, top);
    this.drawRowNames(sight);
    this.drawColumnNames(sight);
    this.drawCorner(sight);
    this.took = performance.now() - started;
  }

  /**
   * Most cells are not applicable: all get that mark in one stroke, and the others are drawn over it.
   * @param {ReturnType<Grid['sight']>} sight
   */
  drawCells({ x, y, width, height, firstRow, lastRow, firstColumn, lastColumn }) {
    const { brush, picture, ratio, top, left } = this, hasChanges = picture.hasChanges();
    brush.save();
    brush.beginPath();
    brush.rect(left, top, Math.max(0, lastColumn * CELL - x), Math.max(0, lastRow * CELL - y));
    brush.clip();
    brush.translate(left - (x % CELL), top - (y % CELL));
    brush.scale(1 / ratio, 1 / ratio);
    brush.fillStyle = /** @type {CanvasPattern} */ (brush.createPattern(this.sprite('N'), 'repeat'));
    brush.fillRect(0, 0, (width + CELL) * ratio, (height + CELL) * ratio);
    brush.restore();
    for (let i = firstRow; i < lastRow; i += 1) {
      for (let j = firstColumn; j < lastColumn; j += 1) {
        const letter = picture.letter(i, j), isChanged = hasChanges && picture.isChanged(i, j);
        if (letter === 'N' && !isChanged) continue;
        const at = [left + j * CELL - x, top + i * CELL - y];
        if (letter !== 'N') brush.drawImage(this.sprite(letter), at[0], at[1], CELL, CELL);
        if (isChanged) this.drawChange(at[0], at[1]);
      }
    }
  }

  /** @param {string} letter */
  sprite(letter) { return /** @type {HTMLCanvasElement} */ (this.sprites.get(letter) ?? this.sprites.get('')); }

  /**
   * A frame with a line inside: on a full ground one alone can't be seen.
   * @param {number} x @param {number} y
   */
  drawChange(x, y) {
    const { brush, ink } = this;
    brush.lineWidth = 2;
    brush.strokeStyle = ink.page;
    brush.strokeRect(x + 3, y + 3, CELL - 6, CELL - 6);
    brush.strokeStyle = ink.changed;
    brush.strokeRect(x + 1, y + 1, CELL - 2, CELL - 2);
  }

  /** @param {ReturnType<Grid['sight']>} sight */
  drawRowNames({ y, firstRow, lastRow, at }) {
    const { picture, writer, top, left, ink } = this;
    for (let i = firstRow; i < lastRow; i += 1) {
      const line = top + i * CELL - y + CELL / 2 + 1;
      writer.write(writer.fit(picture.rowText(i), left - 70), 12, line, { size: 13, isBold: i === at.row });
      writer.write(picture.rowTotal(i), left - 12, line, { size: 12, align: 'right', color: ink.quiet });
    }
  }

  /** @param {ReturnType<Grid['sight']>} sight */
  drawColumnNames({ x, firstColumn, lastColumn, at }) {
    const { picture, writer, brush, top, left, ink } = this;
    for (let j = firstColumn; j < lastColumn; j += 1) {
      const middle = left + j * CELL - x + CELL / 2, total = picture.columnTotal(j);
      brush.save();
      brush.translate(middle + 1, top - 22);
      brush.rotate(-Math.PI / 2);
      writer.write(writer.fit(picture.columnText(j), top - 28), 0, 0, { size: 12, isBold: j === at.column });
      brush.restore();
      writer.write(total, middle, top - 10, { size: total.length > 3 ? 9 : 10, align: 'center', color: ink.quiet });
    }
  }

  /** @param {ReturnType<Grid['sight']>} sight */
  drawCorner({ width, height }) {
    const { brush, writer, picture, top, left, ink } = this;
    brush.fillStyle = ink.page;
    brush.fillRect(0, 0, left, top);
    writer.write(picture.corner, 12, top - 10, { size: 12, color: ink.quiet });
    if (left > 118) writer.write('Permits', left - 12, top - 10, { size: 12, align: 'right', color: ink.quiet });
    brush.fillStyle = ink.line;
    brush.fillRect(0, top - 1, width, 1);
    brush.fillRect(left - 1, 0, 1, height);
  }

  /** Puts the element of the marked cell where that is drawn, with its words. */
  place() {
    const { picture, cell, row, column } = this;
    if (!picture.rows || !picture.columns) return;
    cell.style.transform = `translate(${this.left + column * CELL}px, ${this.top + row * CELL}px)`;
    const letter = picture.letter(row, column), duty = letter === 'p' || letter === 'd'
      ? ', with an obligation or advice' : '';
    const words = letter ? DECISIONS[letter.toUpperCase()] + duty : 'not read yet';
    cell.setAttribute('aria-label', shown(`${picture.names(row, column)}: ${words}${
      picture.isChanged(row, column) ? ', changed' : ''}`));
    for (const each of [cell, this.rowHead]) each.setAttribute('aria-rowindex', String(row + 2));
    for (const each of [cell, this.columnHead]) each.setAttribute('aria-colindex', String(column + 2));
    this.rowHead.textContent = shown(picture.rowText(row));
    this.columnHead.textContent = shown(picture.columnText(column));
  }

  /**
   * Marks a cell, and brings it into sight.
   * @param {number} row @param {number} column
   */
  go(row, column) {
    const { picture, scroller } = this;
    this.over = null;
    this.row = Math.max(0, Math.min(picture.rows - 1, row));
    this.column = Math.max(0, Math.min(picture.columns - 1, column));
    const into = (/** @type {number} */ at, /** @type {number} */ from, /** @type {number} */ room) =>
      (at < from ? at : Math.max(from, at - room));
    scroller.scrollLeft = into(this.column * CELL, scroller.scrollLeft, scroller.clientWidth - this.left - CELL);
    scroller.scrollTop = into(this.row * CELL, scroller.scrollTop, scroller.clientHeight - this.top - CELL);
    this.place();
    this.soon();
  }

  /** @param {KeyboardEvent} event */
  key(event) {
    const page = Math.max(1, Math.floor((this.scroller.clientHeight - this.top) / CELL) - 1);
    const isFar = event.ctrlKey || event.metaKey, { row, column, picture } = this;
    const moves = /** @type {Record<string, [number, number]>} */ ({
      ArrowUp: [isFar ? 0 : row - 1, column], ArrowDown: [isFar ? picture.rows : row + 1, column],
      ArrowLeft: [row, isFar ? 0 : column - 1], ArrowRight: [row, isFar ? picture.columns : column + 1],
      Home: [isFar ? 0 : row, 0], End: [isFar ? picture.rows : row, picture.columns],
      PageUp: [row - page, column], PageDown: [row + page, column],
    });
    if (event.key in moves) {
      this.go(...moves[event.key]);
      say(this.cell.getAttribute('aria-label'));
    } else if (event.key === 'Enter' || event.key === ' ') picture.opens(row, column);
    else return;
    event.preventDefault();
  }

  /** @param {MouseEvent} event */
  under(event) {
    const frame = this.canvas.getBoundingClientRect(), { picture, scroller } = this;
    const x = event.clientX - frame.left - this.left, y = event.clientY - frame.top - this.top;
    const row = y < 0 ? -1 : Math.floor((y + scroller.scrollTop) / CELL);
    const column = x < 0 ? -1 : Math.floor((x + scroller.scrollLeft) / CELL);
    return { row, column, isIn: row < picture.rows && column < picture.columns };
  }

  /** @param {MouseEvent} event */
  hover(event) {
    const at = this.under(event);
    this.over = at.isIn && at.row >= 0 && at.column >= 0 ? at : null;
    this.canvas.style.cursor = at.isIn ? 'pointer' : 'default';
    this.soon();
  }

  /** @param {MouseEvent} event */
  click(event) {
    const { row, column, isIn } = this.under(event);
    if (!isIn) return;
    if (row >= 0 && column >= 0) {
      this.go(row, column);
      this.cell.focus({ preventScroll: true });
      this.picture.opens(row, column);
    } else if (row >= 0) this.picture.opensRow(row);
    else if (column >= 0) this.picture.opensColumn(column);
  }
}
