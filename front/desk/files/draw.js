// How a picture of decisions is drawn: letters copied from sprites, names beside and above, what changed in a frame.
import { shown } from './words.js';

export const CELL = 22;
const FONT = '"Inter", "Segoe UI", system-ui, "DejaVu Sans", sans-serif';

/** @typedef {Record<string, any>} Ink */

/**
 * The colours are the style's, so that they are written once.
 * @returns {Ink}
 */
export function inks() {
  const style = getComputedStyle(document.documentElement), get = (/** @type {string} */ name) =>
    style.getPropertyValue(`--${name}`).trim();
  return {
    P: [get('permit'), get('permit-ink')], D: [get('deny'), get('deny-ink')], N: [null, get('quiet')],
    I: [get('fault'), get('fault-ink')], line: get('line'), page: get('page'), text: get('text'), quiet: get('quiet'),
    wait: get('ground'), changed: get('act'), here: get('here'),
  };
}

/** @param {CanvasRenderingContext2D} brush @param {string} letter @param {string} text */
function drawSign(brush, letter, text) {
  brush.fillStyle = brush.strokeStyle = text;
  brush.textAlign = 'center';
  brush.textBaseline = 'middle';
  brush.font = `600 12px ${FONT}`;
  if ('123'.includes(letter)) {
    brush.setLineDash([2, 2]);
    brush.strokeRect(2, 2, CELL - 4, CELL - 4);
  }
  const sign = { N: '·', P: 'P', D: 'D' }[letter.toUpperCase()] ?? '?';
  brush.fillText(sign, CELL / 2, CELL / 2 + 1);
  if (letter === 'p' || letter === 'd') {
    brush.beginPath();
    brush.moveTo(CELL - 1, CELL - 9);
    brush.lineTo(CELL - 1, CELL - 1);
    brush.lineTo(CELL - 9, CELL - 1);
    brush.fill();
  }
}

/**
 * Each letter drawn once for a size of the screen, to be copied.
 * @param {Ink} ink @param {number} ratio
 */
export function sprites(ink, ratio) {
  /** @type {Map<string, HTMLCanvasElement>} */
  const made = new Map();
  for (const letter of ['P', 'p', 'D', 'd', 'N', '1', '2', '3', '']) {
    const canvas = document.createElement('canvas');
    canvas.width = canvas.height = Math.round(CELL * ratio);
    const brush = /** @type {CanvasRenderingContext2D} */ (canvas.getContext('2d'));
    brush.scale(ratio, ratio);
    const [ground, text] = ink[letter.toUpperCase()] ?? ink.I;
    const fill = letter === '' ? ink.wait : ground;
    if (fill) {
      brush.fillStyle = fill;
      brush.fillRect(1, 1, CELL - 2, CELL - 2);
    }
    if (letter !== '') drawSign(brush, letter, text);
    made.set(letter, canvas);
  }
  return made;
}

/** What measures and writes names. Measuring is what costs most: each name is measured once, in its widest form. */
export class Writer {
  /** @param {CanvasRenderingContext2D} brush @param {Ink} ink */
  constructor(brush, ink) {
    this.brush = brush;
    this.ink = ink;
    /** @type {Map<string, string>} */
    this.fitted = new Map();
  }

  /**
   * The room that the longest of some names takes.
   * @param {number} count @param {(n: number) => string} name
   */
  longest(count, name) {
    let most = '';
    for (let i = 0; i < count; i += 1) if (name(i).length > most.length) most = name(i);
    this.brush.font = `600 13px ${FONT}`;
    return this.brush.measureText(shown(most)).width;
  }

  /**
   * As much of a name as there is room for.
   * @param {string} name @param {number} room
   */
  fit(name, room) {
    const key = `${room} ${name}`, known = this.fitted.get(key);
    if (known !== undefined) return known;
    const letters = [...shown(name)], cut = (/** @type {number} */ most) =>
      (most < letters.length ? `${letters.slice(0, most).join('')}…` : letters.join(''));
    let low = 1, high = letters.length;
    this.brush.font = `600 13px ${FONT}`;
    while (low < high) {
      const middle = Math.ceil((low + high) / 2);
      if (this.brush.measureText(cut(middle)).width <= room) low = middle;
      else high = middle - 1;
    }
    const made = cut(low);
    if (this.fitted.size > 20000) this.fitted.clear();
    this.fitted.set(key, made);
    return made;
  }

  /** @param {string} words @param {number} x @param {number} y
   * @param {{size: number, isBold?: boolean, align?: CanvasTextAlign, color?: string}} how */
  write(words, x, y, { size, isBold = false, align = 'left', color = this.ink.text }) {
    const { brush } = this;
    brush.font = `${isBold ? 600 : 400} ${size}px ${FONT}`;
    brush.fillStyle = color;
    brush.textAlign = align;
    brush.textBaseline = 'middle';
    brush.fillText(words, x, y);
  }
}
