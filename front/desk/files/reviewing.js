// Reviews of access, as the front tells them: campaigns, their items by groups, tasks; and their words.
import { ask, query, send } from './ask.js';
import { desk, may } from './state.js';
import { link, moment, number, plural } from './words.js';
import { learn } from './called.js';

/** How many groups are asked for at once, and how many are shown at most. */
const PAGE = 1000, MOST = 5000, TASKS = 200;

/** @returns {Promise<Campaign[]>} */
export const campaigns = async () => (await ask('/campaigns')).told.campaigns;

/** @param {string} name @returns {Promise<Campaign>} */
export const campaign = async (name) => (await ask(`/campaigns/${name}`)).told;

/**
 * The groups of a reviewer, or of all who may be looked at; anew, where an edit came between two parts.
 * @param {string} name @param {{reviewer?: string, state?: string[]}} asked
 * @returns {Promise<{groups: ItemGroup[], serial: number, more: boolean}>}
 */
export async function groupsOf(name, asked) {
  for (let turn = 0; ; turn += 1) {
    /** @type {ItemGroup[]} */
    const groups = [];
    let more = true, serial = 0, isOne = true;
    while (more && isOne && groups.length < MOST) {
      const part = { ...asked, from: groups.length || undefined, count: PAGE };
      const { told } = await ask(`/campaigns/${name}/items${query(part)}`);
      isOne = turn === 3 || serial === 0 || serial === told.serial;
      serial = told.serial;
      learn(told.groups.map((/** @type {ItemGroup} */ group) => group.person), told.called ?? {});
      groups.push(...told.groups);
      more = told.more;
    }
    if (isOne) return { groups, serial, more };
  }
}

/**
 * An item, with what its answer rests on.
 * @param {string} name @param {number} item
 * @returns {Promise<{group: ItemGroup, explain: Explained, serial: number}>}
 */
export const itemOf = async (name, item) => (await ask(`/campaigns/${name}/items/${item}`)).told;

/** @param {string} name @returns {Promise<{tasks: Task[], more: boolean}>} */
export const tasksOf = async (name) => (await ask(`/campaigns/${name}/tasks${query({ count: TASKS })}`)).told;

/**
 * Sends an act: keep, revoke, pass, undo or close.
 * @param {string} name @param {string} what @param {any} body @returns {Promise<{serial: number}>}
 */
export const act = async (name, what, body) => (await send(`/campaigns/${name}/${what}`, JSON.stringify(body))).told;

/** Whether it is known who asks, without which nobody signs. */
export const isKnown = () => desk.who.roles.length > 0;

/** The names by which who asks reviews. */
export const ownNames = () => [...new Set([desk.who.name, desk.who.person ?? ''])].filter(Boolean);

/** The states of groups, in words. */
export const STATES = /** @type {Record<string, string>} */ ({
  open: 'to do', fell: 'fallen', kept: 'kept', revoke: 'to revoke', revoked: 'revoked', gone: 'out of scope',
});

/** What became of a sign-off in the campaign before, in words. */
const LAST = /** @type {Record<string, string>} */ ({
  new: 'It was no item of the campaign before.', 'not signed': 'Nobody signed it in the campaign before.',
  fell: 'Its sign-off in the campaign before fell.', 'too old': 'Its sign-off in the campaign before is too old.',
  'another answer': 'Its answer is another one than was signed in the campaign before.',
});

/** @param {string} last */
export const lastWords = (last) => LAST[last] ?? '';

/**
 * What an edit was, by its kind and what it named.
 * @param {ItemEdit} edit
 */
export function editOf({ kind, entity, unknown }) {
  if (unknown) return 'edits of which it isn’t known any more what they changed';
  if (kind === 'attr.set') return `values of ${entity} set`;
  const [what, verb] = kind.split('.');
  if (verb === 'set') return `another ${what} set`;
  const done = /** @type {Record<string, string>} */ ({ add: 'added', drop: 'dropped', replace: 'replaced',
    withdraw: 'withdrawn' })[verb] ?? verb;
  return `${what} ${entity} ${done}`;
}

/**
 * Where it is told what an edit changed, for who may see that.
 * @param {ItemEdit} edit @param {any} words
 */
export const editLink = (edit, words) => (may('changes')
  ? link('changes', { since: edit.serial - 1, until: edit.serial }, words) : words);

/**
 * Who did something, when and at which serial.
 * @param {{by: string, time: string, serial: number}} done
 */
export const doneBy = ({ by, time, serial }) => `by ${by}, ${moment(time)}, serial ${number(serial)}`;

/** @param {Campaign} told */
export const signedOf = ({ states }) => (states.kept ?? 0) + (states.revoke ?? 0) + (states.revoked ?? 0);

/**
 * How far a campaign is, in a sentence.
 * @param {Campaign} told
 */
export function farWords(told) {
  const { open = 0, fell = 0, kept = 0, revoke = 0, revoked = 0, gone = 0 } = told.states, done = signedOf(told);
  const rest = told.items - gone, share = rest ? Math.floor((100 * done) / rest) : 100;
  return `${number(done)} of ${plural(rest, 'cell')} are signed (${share} %): ${number(kept)} kept, ${
    number(revoke)} to revoke, ${number(revoked)} revoked. ${number(fell)} fell, ${number(open)} are to do${
    gone ? `; ${number(gone)} are out of scope by now` : ''}.`;
}
