// What the page holds of the table: the lists of names, and which cells changed and weren't looked at since.
import { names } from './front.js';

/**
 * @typedef {{lists: Lists, opened: number, openedAt: Date, serial: number, who: Who, live: string, since: Date}} Desk
 */

/** @type {Lists} */
const none = {
  people: [], actions: [], resources: [], serial: 0, places: { people: new Map(), actions: new Map(),
    resources: new Map() },
};

/** @type {Desk} */
export const desk = {
  lists: none, opened: 0, openedAt: new Date(), serial: 0, who: { name: '', roles: [], commands: [] }, live: 'begins',
  since: new Date(),
};

/**
 * Cells that changed since the page was opened and weren't looked at, each with its decision before.
 * @type {Map<string, {of: Change, before: string | null}>}
 */
export const changed = new Map();

/** @param {string} person @param {string} action @param {string} resource */
export const keyOf = (person, action, resource) => JSON.stringify([person, action, resource]);

/**
 * Whether who asks has a command.
 * @param {string} command
 */
export const may = (command) => desk.who.commands.includes(command);

/** Reads the lists anew. */
export async function readLists() {
  desk.lists = await names('');
  desk.serial = Math.max(desk.serial, desk.lists.serial);
  desk.opened ||= desk.lists.serial;
}

/**
 * The lists as of a moment, or now.
 * @param {string} at
 */
export const listsAt = async (at) => (at ? names(at) : desk.lists);

/**
 * Takes what an edit changed.
 * @param {Change[]} changes
 */
export function take(changes) {
  for (const of of changes) {
    const key = keyOf(of.person, of.action, of.resource), known = changed.get(key);
    changed.set(key, { of, before: known ? known.before : of.before });
  }
}
