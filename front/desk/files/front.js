// The source of a front: what the page asks it. What a program of another version can't tell in parts is made of its
// whole
// table, where that is small enough.
import { ask, query, Problem } from './ask.js';
import * as made from './made.js';

/** How many cells a table has at most that is read whole. */
const MOST = 300000;

/** @type {List[]} */
export const LISTS = ['people', 'actions', 'resources'];

/**
 * The questions that this front can't answer.
 * @type {Set<string>}
 */
export const unknown = new Set();

/**
 * The lists of names, of now or as of a moment.
 * @param {string} at @returns {Promise<Lists>}
 */
export async function names(at) {
  const all = await Promise.all(LISTS.map((list) => ask(`/names${query({ list, at })}`)));
  const serial = Math.min(...all.map((each) => each.serial));
  if (all.some((each) => each.serial !== serial)) return names(at);
  const [people, actions, resources] = all.map((each) => /** @type {string[]} */ (each.told.names));
  const places = (/** @type {string[]} */ list) => new Map(list.map((each, place) => [each, place]));
  return {
    people, actions, resources, serial,
    places: { people: places(people), actions: places(actions), resources: places(resources) },
  };
}

/** @type {{serial: number, at: string, whole: Promise<made.Whole>} | null} */
let kept = null;

/**
 * The whole table, read once for each state.
 * @param {string} at @returns {Promise<made.Whole>}
 */
async function whole(at) {
  const lists = await names(at), size = lists.people.length * lists.actions.length * lists.resources.length;
  if (size > MOST) throw new Error('this service can’t tell a part of so large a table');
  if (kept && kept.serial === lists.serial && kept.at === at) return kept.whole;
  const read = ask(`/table${query({ at })}`).then(({ told, serial }) => {
    if (serial !== lists.serial) {
      kept = null;
      return whole(at);
    }
    return { lists, cells: /** @type {Cell[]} */ (told.table), serial };
  });
  kept = { serial: lists.serial, at, whole: read };
  read.catch(() => { kept = null; });
  return read;
}

/**
 * Asks a question, or makes its answer of the whole table where it isn't known here.
 * @template T @param {string} question @param {string} path @param {string} at
 * @param {(told: any, serial: number) => T} read @param {((whole: made.Whole) => T | Promise<T>) | null} make
 * @returns {Promise<T>}
 */
async function known(question, path, at, read, make) {
  if (!unknown.has(question)) {
    try {
      const { told, serial } = await ask(path);
      return read(told, told.serial ?? serial);
    } catch (problem) {
      if (!(problem instanceof Problem) || !problem.isUnknown) throw problem;
      unknown.add(question);
    }
  }
  if (make === null) throw new Error(`this service has no question of ${question}`);
  return make(await whole(at));
}

/**
 * Places as the front's paths have them.
 * @param {Places | undefined} places
 */
const placesOf = (places) => (places && (places.at ? places.at.join(',') : `${places.from ?? 0}:${places.count ?? 0}`));

/** @param {Part} part @param {string} at */
const partQuery = (part, at) => query({
  ...part, people: placesOf(part.people), actions: placesOf(part.actions), resources: placesOf(part.resources),
  rule: part.rule ?? undefined, at,
});

/**
 * The letters of a part, a text for each row.
 * @param {Part} part @param {string} at @returns {Promise<{rows: string[], serial: number}>}
 */
export const grid = (part, at) => known('grid', `/grid${partQuery(part, at)}`, at,
  (told, serial) => ({ rows: told.grid, serial }), (all) => made.grid(all, part));

/**
 * How many of each decision each name has.
 * @param {Part} part @param {string} at @returns {Promise<{totals: Totals, serial: number}>}
 */
export const totals = (part, at) => known('totals', `/totals${partQuery(part, at)}`, at,
  (told, serial) => ({ totals: told.totals, serial }), (all) => made.totals(all, part));

/**
 * The values of a list's attributes, with the places that have them.
 * @param {List} list @param {string} at @returns {Promise<Heading[]>}
 */
export const values = (list, at) => known('values', `/values${query({ list, at })}`, at, (told) => told.values, null);

/**
 * Every rule of what the root leads to.
 * @param {string} at @returns {Promise<Rule[]>}
 */
export const rules = (at) => known('rules', `/rules${query({ at })}`, at, (told) => told.rules,
  async (all) => made.rules(all, await reached(at)));

/**
 * The causes of Indeterminate answers, each once.
 * @param {string} at @returns {Promise<CauseCount[]>}
 */
export const causes = (at) => known('causes', `/causes${query({ at })}`, at, (told) => told.causes, null);

/**
 * What a part of the table gives its people, by the rules that give it.
 * @param {Part} part @param {string} at @returns {Promise<Grant[]>}
 */
export async function grants(part, at) {
  const all = unknown.has('rules') ? [] : await rules(at);
  return known('grants', `/grants${partQuery(part, at)}`, at, (told) => told.grants.map((/** @type {any} */ each) =>
    ({ ...each, entries: each.rules.map((/** @type {number} */ n) => all[n]) })), (whole_) => made.grants(whole_,
      part));
}

/** @typedef {{actions: string[], resources: string[]}} SideAsked */

/**
 * Who has Permit on both sides.
 * @param {SideAsked} left @param {SideAsked} right @param {boolean} same @param {string} at
 * @returns {Promise<Conflict[]>}
 */
export const conflicts = (left, right, same, at) => known('conflicts', `/conflicts${query({
  left_actions: left.actions, left_resources: left.resources, right_actions: right.actions,
  right_resources: right.resources, same: same ? 'resource' : 'none', at,
})}`, at, (told) => told.conflicts, (all) => made.conflicts(all, left, right, same));

/** @typedef {{attribute: string, type: string, issuer?: string | null, module?: number, below: number}} Group */

/**
 * The Permits that fewer than so many of a group have.
 * @param {Group} group @param {number} count @param {string} at @returns {Promise<{alone: Change[], total: number}>}
 */
export const alone = (group, count, at) => known('alone', `/alone${query({
  category: 'AccessSubject', ...group, count, at,
})}`, at, (told) => told, null);

/**
 * Which cells have a cause.
 * @param {string} at
 */
export const faults = async (at) => /** @type {any[]} */ ((await ask(`/faults${query({ at })}`)).told.faults);

/**
 * A name in a path.
 * @param {string} name
 */
const inPath = (name) => encodeURIComponent(name).replace(/^\.{1,2}$/, (dots) => dots.replaceAll('.', '%2E'));

/**
 * What an answer rests on.
 * @param {string} person @param {string} action @param {string} resource @param {string} at
 */
export async function explain(person, action, resource, at) {
  const path = [person, action, resource].map(inPath).join('/');
  const { told, serial } = await ask(`/explain/${path}${query({ at })}`);
  return { ...told.explain, serial };
}

/**
 * Documents, with their text where an id is given.
 * @param {string} id @param {string} at @returns {Promise<Stored[]>}
 */
export const documents = async (id, at) => (await ask(`/documents${query({ id, at })}`)).told.documents;

/**
 * The documents to which the root leads, with their texts.
 * @param {string} at
 */
async function reached(at) {
  const ids = [...new Set((await documents('', at)).filter((each) => each.reached).map((each) => each.id))];
  const all = await Promise.all(ids.map((id) => documents(id, at)));
  return all.flat().filter((each) => each.reached);
}

/**
 * The values of an entity.
 * @param {string} category @param {string} entity @param {string} at @returns {Promise<Fact[]>}
 */
export const attributes = async (category, entity, at) =>
  (await ask(`/attributes${query({ category, entity, at })}`)).told.attributes;

/**
 * The cells that a rule decided.
 * @param {string} policy @param {string | null} rule @param {string} at
 * @returns {Promise<{person: string, action: string, resource: string}[]>}
 */
export const byRule = async (policy, rule, at) =>
  (await ask(`/by_rule${query({ policy, rule: rule ?? undefined, at })}`)).told.by_rule;

/** @param {string} at */
export const counts = async (at) => (await ask(`/counts${query({ at })}`)).told.counts;

/** @param {string} at */
export const stateOf = async (at) => (await ask(`/state${query({ at })}`)).told.state;

/**
 * Edits with what each changed.
 * @param {Record<string, any>} asked
 * @returns {Promise<{edits: Edit[], more: boolean, serial: number, unknown?: Range[]}>}
 */
export const edits = async (asked) => (await ask(`/edits${query(asked)}`)).told;

/**
 * What changed between two serials.
 * @param {Record<string, any>} asked @returns {Promise<{changes: Change[], serial: number}>}
 */
export const changes = async (asked) => (await ask(`/changes${query(asked)}`)).told;

/**
 * Some places of a list, told as a run where they are one.
 * @param {number[]} places @returns {Places}
 */
export const some = (places) => (places.every((place, i) => place === places[0] + i)
  ? { from: places[0] ?? 0, count: places.length } : { at: places });
