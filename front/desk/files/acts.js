// A reviewer's acts, one behind the other. An act is of the row that had the mark when the key came; it is drawn at
// once, and sent behind those before it, so that keys faster than the network sign each row once.
import { act } from './reviewing.js';
import { desk } from './state.js';
import { Problem } from './ask.js';

/** @typedef {'keep' | 'revoke' | 'pass'} Kind */
/** @typedef {{campaign: string, row: ListRow, items: number[]}} Done */

/**
 * Who draws rows.
 * @type {{drawn: (row: ListRow) => void, failed: (row: ListRow, words: string) => void}}
 */
export const hooks = { drawn() {}, failed() {} };

/** The serials of the acts that were made here, of which nothing new is heard. */
export const own = new Set();

/** @type {Promise<void>} */
let queue = Promise.resolve();
let waiting = 0;
/** @type {Done[]} */
let kept = [];

/** Whether acts are on their way. */
export const isBusy = () => waiting > 0;

// Who leaves the page meanwhile is asked whether she will.
window.addEventListener('beforeunload', (event) => { if (isBusy()) event.preventDefault(); });

/** @param {ListRow} row */
export const itemsOf = (row) => row.group.items.map((each) => each.item);

/**
 * Why an act wasn't taken, in words.
 * @param {any} fault
 */
function faultWords(fault) {
  if (!(fault instanceof Problem)) return 'the service doesn’t answer';
  if (fault.status === 409 && fault.title === 'another answer') return 'its answer isn’t the one that stood here';
  return fault.message;
}

/**
 * Sends something of a row behind what is on its way.
 * @param {ListRow} row @param {() => Promise<{serial: number}>} send @param {(serial: number) => void} done
 * @param {() => void} back
 */
function behind(row, send, done, back) {
  waiting += 1;
  row.waits += 1;
  row.fault = '';
  queue = queue.then(send).then(({ serial }) => {
    row.waits -= 1;
    own.add(serial);
    done(serial);
  }, (fault) => {
    row.waits -= 1;
    row.fault = faultWords(fault);
    back();
    hooks.failed(row, row.fault);
  }).then(() => {
    waiting -= 1;
    hooks.drawn(row);
  });
}

/**
 * Has a group be as an act left it: signed so, or by nobody.
 * @param {ItemGroup} group @param {string} state @param {SignOff} [signed]
 */
function leave(group, state, signed) {
  group.state = state;
  for (const item of group.items) {
    delete item.by;
    delete item.back;
    delete item.signed;
    if (signed) item.signed = signed;
  }
}

const STATE = { keep: 'kept', revoke: 'revoke', pass: 'passed' };

/**
 * Signs a row, or passes it on. What is told of its answers is what was seen.
 * @param {string} campaign @param {ListRow} row @param {Kind} kind @param {number} serial @param {any} more
 */
export function sign(campaign, row, kind, serial, more = {}) {
  const before = row.state, items = itemsOf(row), done = { campaign, row, items };
  const body = kind === 'pass' ? { items, ...more } : { items, digest: row.group.digest, serial, ...more };
  row.state = STATE[kind];
  if (kind !== 'pass') kept.push(done);
  behind(row, () => act(campaign, kind, body), (told) => {
    if (kind !== 'pass') leave(row.group, STATE[kind], { as: kind, by: desk.who.name, time: new Date().toISOString(),
      serial: told, digest: row.group.digest, ...more });
  }, () => {
    row.state = before;
    kept = kept.filter((each) => each !== done);
  });
}

/** Whether something was signed that can be taken back. */
export const canUndo = () => kept.length > 0;

/**
 * Takes back the last sign-off that was made here; which row that was.
 * @param {string} campaign @returns {ListRow | null}
 */
export function undo(campaign) {
  const done = kept.pop();
  if (!done || done.campaign !== campaign) return null;
  const { row, items } = done, before = row.state;
  row.state = 'open';
  behind(row, () => act(campaign, 'undo', { items }), () => leave(row.group, 'open'), () => { row.state = before; });
  return row;
}
