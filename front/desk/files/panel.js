// The side: what is told of a cell or a rule. It never covers the table.
import { el, field } from './words.js';

/**
 * What is done when it closes.
 * @type {() => void}
 */
let closes = () => {};

/** @param {boolean} [isQuiet] whether what waits for its closing isn't told */
export function close(isQuiet = false) {
  const panel = field('panel');
  if (panel.hidden) return;
  panel.hidden = true;
  panel.replaceChildren();
  const then = closes;
  closes = () => {};
  if (!isQuiet) then();
}

/** @param {any[]} children @param {() => void} [then] */
export function open(children, then = () => {}) {
  const panel = field('panel');
  closes = then;
  panel.hidden = false;
  panel.replaceChildren(el('button.close', { type: 'button', 'aria-label': 'Close', title: 'Close (Esc)',
    onclick: () => close() }, '×'),
    el('div', {}, children));
  panel.scrollTop = 0;
  panel.scrollIntoView({ block: 'nearest' });
}
