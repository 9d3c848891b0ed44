// What is made of a whole table: letters, counts, and what rules give. It is the same that the program tells in parts.
import { letterOf, kindOf } from './words.js';

/** @typedef {{lists: Lists, cells: Cell[], serial: number}} Whole */

/**
 * The letter of a cell: a small one where there are obligations or advice.
 * @param {Cell} cell
 */
export function letter(cell) {
  const made = letterOf(cell.decision);
  return cell.obligations.length + cell.advice.length > 0 ? made.toLowerCase() : made;
}

/**
 * The places of a list that a part has.
 * @param {Whole} all @param {List} list @param {string | undefined} one @param {Places | undefined} some
 * @returns {number[]}
 */
function chosen(all, list, one, some) {
  const names = all.lists[list];
  if (one !== undefined) {
    const place = all.lists.places[list].get(one);
    if (place === undefined) throw new Error(`${one} isn’t listed`);
    return [place];
  }
  const places = names.map((_, place) => place);
  if (!some) return places;
  if (some.at) return some.at.filter((place) => place < names.length);
  return places.slice(some.from ?? 0, (some.from ?? 0) + (some.count ?? names.length));
}

/** @param {Whole} all @param {Part} part */
function places(all, part) {
  return {
    people: chosen(all, 'people', part.person, part.people),
    actions: chosen(all, 'actions', part.action, part.actions),
    resources: chosen(all, 'resources', part.resource, part.resources),
  };
}

/**
 * The cell at three places.
 * @param {Whole} all @param {number} person @param {number} action @param {number} resource
 */
export const cellAt = ({ lists, cells }, person, action, resource) =>
  cells[(person * lists.actions.length + action) * lists.resources.length + resource];

/** @param {Whole} all @param {Part} part */
export function grid(all, part) {
  const { people, actions, resources } = places(all, part);
  const row = (/** @type {number[]} */ columns, /** @type {(n: number) => Cell} */ cell) =>
    columns.map((n) => letter(cell(n))).join('');
  const rows = part.resource !== undefined
    ? resources.flatMap((r) => people.map((p) => row(actions, (a) => cellAt(all, p, a, r))))
    : people.flatMap((p) => actions.map((a) => row(resources, (r) => cellAt(all, p, a, r))));
  return { rows, serial: all.serial };
}

/**
 * The id of what a rule stands in.
 * @param {Entry} entry
 */
export const holderOf = (entry) => entry.path[entry.path.length - 1]?.[1] ?? '';

/**
 * Whether a rule of a policy is one of those that gave a cell its decision.
 * @param {Cell} cell @param {string} policy @param {string | null} rule
 */
const isBy = (cell, policy, rule) => cell.why.some((entry) => holderOf(entry) === policy && entry.rule === rule);

/** @param {Whole} all @param {Part} part */
export function totals(all, part) {
  const { people, actions, resources } = places(all, part);
  const zero = (/** @type {number[]} */ list) => list.map(() => /** @type {Counts} */ ([0, 0, 0, 0]));
  const made = { people: zero(people), actions: zero(actions), resources: zero(resources) };
  people.forEach((p, i) => actions.forEach((a, j) => resources.forEach((r, k) => {
    const cell = cellAt(all, p, a, r);
    if (part.policy !== undefined && !isBy(cell, part.policy, part.rule ?? null)) return;
    const kind = kindOf(letterOf(cell.decision));
    for (const counts of [made.people[i], made.actions[j], made.resources[k]]) counts[kind] += 1;
  })));
  return { totals: made, serial: all.serial };
}

/**
 * Whether entries are of the same rule.
 * @param {Entry} entry
 */
export const entryKey = (entry) => JSON.stringify([entry.path, entry.rule]);

/**
 * Each of some things by its key, in the order in which they come first.
 * @template T @param {T[]} things @param {(thing: T) => string} key @returns {T[][]}
 */
export function gathered(things, key) {
  /** @type {Map<string, T[]>} */
  const groups = new Map();
  for (const thing of things) {
    const group = groups.get(key(thing));
    if (group) group.push(thing);
    else groups.set(key(thing), [thing]);
  }
  return [...groups.values()];
}

const once = (/** @type {string[]} */ names) => [...new Set(names)];

/**
 * What a cell's rules give, joined.
 * @param {Cell[]} cells @returns {Grant[]}
 */
export const grantsOf = (cells) => gathered(cells.filter((cell) => cell.decision === 'Permit'),
  (cell) => JSON.stringify([cell.person, cell.why.map(entryKey)])).map((group) => ({
  person: group[0].person, entries: group[0].why, actions: once(group.map((cell) => cell.action)),
  resources: once(group.map((cell) => cell.resource)), cells: group.length,
}));

/** @param {Whole} all @param {Part} part */
export function grants(all, part) {
  const { people, actions, resources } = places(all, part);
  return grantsOf(people.flatMap((p) => actions.flatMap((a) => resources.map((r) => cellAt(all, p, a, r)))));
}

/**
 * Whether the default of an algorithm decides.
 * @param {string} algorithm
 */
const hasDefault = (algorithm) => /:(deny-unless-permit|permit-unless-deny)$/.test(algorithm);

/**
 * The rules of an element, and the defaults that decide, each with its path.
 * @param {any} element @param {Entry['path']} path @returns {Entry[]}
 */
function entriesIn(element, path) {
  const [kind, inner] = Object.entries(element)[0] ?? [];
  if (kind !== 'Policy' && kind !== 'PolicySet') return [];
  const id = String(inner.PolicyId ?? inner.PolicySetId),
    here = /** @type {Entry['path']} */ ([...path, [kind, id, inner.Version]]);
  const own = (inner.Rule ?? []).map((/** @type {any} */ rule) => ({ path: here, rule: rule.RuleId }));
  const below = (inner.Children ?? []).flatMap((/** @type {any} */ child) => entriesIn(child, here));
  const last = hasDefault(inner.RuleCombiningAlgId ?? inner.PolicyCombiningAlgId) ? [{ path: here, rule: null }] : [];
  return [...own, ...below, ...last];
}

/**
 * The key of a rule without the documents over which it is reached.
 * @param {Entry} entry
 */
const bare = (entry) => JSON.stringify([entry.path.slice(-1), entry.rule]);

/**
 * The rules of documents with how many cells each decides; those that decide nothing too.
 * @param {Whole} all @param {Stored[]} documents @returns {Rule[]}
 */
export function rules(all, documents) {
  const met = gathered(all.cells.flatMap((cell) => cell.why.map((entry) => ({ entry, cell }))),
    (each) => entryKey(each.entry));
  const deciding = met.map((group) => ({ ...group[0].entry, cells: group.length,
    permits: group.filter(({ cell }) => cell.decision === 'Permit').length }));
  const known = new Set(deciding.map(bare));
  const idle = documents.flatMap((each) => entriesIn(each.document, [])).filter((entry) => !known.has(bare(entry)));
  return [...deciding, ...idle.map((entry) => ({ ...entry, cells: 0, permits: 0 }))];
}

/**
 * Who has Permit on both sides.
 * @param {Whole} all @param {{actions: string[], resources: string[]}} left
 * @param {{actions: string[], resources: string[]}} right @param {boolean} same @returns {Conflict[]}
 */
export function conflicts(all, left, right, same) {
  const has = (/** @type {string[]} */ names, /** @type {string} */ name) => names.length === 0 || names.some((each) =>
    each === name || each.endsWith('*') && name.startsWith(each.slice(0, -1)));
  const permits = all.cells.filter((cell) => cell.decision === 'Permit');
  return gathered(permits, (cell) => cell.person).flatMap((mine) => {
    const on = (/** @type {typeof left} */ side) =>
      mine.filter((cell) => has(side.actions, cell.action) && has(side.resources, cell.resource));
    const [lefts, rights] = [on(left), on(right)];
    const meets = (/** @type {Cell} */ one, /** @type {Cell[]} */ others) => others.some((other) => !same
      || other.resource === one.resource);
    const l = lefts.filter((cell) => meets(cell, rights)), r = rights.filter((cell) => meets(cell, lefts));
    if (!l.length) return [];
    const first = r.find((cell) => !same || cell.resource === l[0].resource) ?? r[0];
    const side = (/** @type {Cell} */ cell, /** @type {number} */ cells) =>
      ({ action: cell.action, resource: cell.resource, cells });
    return [{ person: mine[0].person, left: side(l[0], l.length), right: side(first, r.length) }];
  });
}
