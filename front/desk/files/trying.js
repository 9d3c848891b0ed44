// Trying an edit at the front, and making it.
import { send } from './ask.js';
import { may } from './state.js';

/** @typedef {{lost: number, gained: number, other: number, reasons: number}} Balance */
/** @typedef {{changes: Change[], counts: Balance, serial: number, more: number}} Tried */
/** @typedef {{line: number, words: string}} Fault */

/**
 * Counts as `Permit to Deny`, summed.
 * @param {Record<string, number>} counts @returns {Balance}
 */
export function balanceOf(counts) {
  const sum = { lost: 0, gained: 0, other: 0, reasons: counts.reasons ?? 0 };
  for (const [key, count] of Object.entries(counts)) {
    const [before, after] = key.split(' to ');
    if (after === undefined) continue;
    if (before === 'Permit' && after !== 'Permit') sum.lost += count;
    else if (before !== 'Permit' && after === 'Permit') sum.gained += count;
    else sum.other += count;
  }
  return sum;
}

/**
 * A cell of a comparison as a change.
 * @param {{before: Cell | null, after: Cell | null}} both @returns {Change}
 */
function changeOf({ before, after }) {
  const { person, action, resource } = /** @type {Cell} */ (after ?? before);
  return { person, action, resource, before: before?.decision ?? null, after: after?.decision ?? null };
}

/**
 * Tells what an edit would change. Nothing is kept.
 * @param {any} line @returns {Promise<Tried>}
 */
export async function trial(line) {
  const { told, serial } = await send('/lines?dry=1', `${JSON.stringify(line)}\n`);
  return { changes: told.decisions.map(changeOf), counts: balanceOf(told.counts), serial, more: 0 };
}

/**
 * Makes an edit, if nothing was edited since.
 * @param {any} line @param {number} serial @returns {Promise<{changes: number, serial: number}>}
 */
export async function make({ do: command, ...rest }, serial) {
  return (await send(`/commands/${command}`, JSON.stringify(rest), { 'If-Match': String(serial) })).told;
}

/**
 * What is wrong with a policy's text, each fault at its line.
 * @param {string} text @returns {Promise<Fault[]>}
 */
export async function check(text) {
  if (!may('policy.add') && !may('policy.replace')) return [];
  const { told } = await send('/documents/check', text);
  return told.faults;
}
