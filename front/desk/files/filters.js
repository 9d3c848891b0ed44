// What the table's filters let through: places of the lists by a part of a name, a value of an attribute, a decision, a
// rule, and what changed.
import { totals, values, rules, unknown } from './front.js';
import { changed, listsAt } from './state.js';
import { holderOf } from './made.js';

/** The most values that an attribute has of which a menu is made. */
const MENU = 40;

/** What the table shows, as its address says it. */
export const KEYS = ['action', 'find', 'people', 'resources', 'has', 'rule', 'changed', 'turned', 'at', 'person',
  'resource'];

/** @typedef {Record<string, string>} Filter */
/** @typedef {{people: number[], resources: number[], totals: Totals | null, serial: number}} Passing */

/**
 * A rule as the address has it, and back.
 * @param {Rule} rule
 */
export const ruleKey = (rule) => JSON.stringify([holderOf(rule), rule.rule]);

/** @param {string} key @returns {{policy?: string, rule?: string | null}} */
export function ruleOf(key) {
  if (!key) return {};
  const [policy, rule] = JSON.parse(key);
  return { policy, rule };
}

/**
 * The values of a list, read once for each moment.
 * @type {Map<string, Promise<Heading[]>>}
 */
const kept = new Map();

/** @param {List} list @param {string} at */
export function valuesOf(list, at) {
  const key = `${list} ${at}`;
  if (unknown.has('values')) return Promise.resolve([]);
  if (!kept.has(key)) {
    kept.set(key, values(list, at).catch((fault) => {
      kept.delete(key);
      if (unknown.has('values')) return [];
      throw fault;
    }));
  }
  return /** @type {Promise<Heading[]>} */ (kept.get(key));
}

/** Values may be others after an edit. */
export const forgetValues = () => kept.clear();

/**
 * The attributes of which a menu can be made, each with its values.
 * @param {Heading[]} headings
 */
export const menus = (headings) => headings.filter((heading) => heading.values.length <= MENU).flatMap((heading) =>
  heading.values.map(({ value }) => ({ attribute: heading.attribute, value: String(value) })))
  .sort((a, b) => (a.attribute + a.value < b.attribute + b.value ? -1 : 1));

/**
 * The places that have a value of an attribute, or all.
 * @param {List} list @param {string} given @param {string} at
 */
async function having(list, given, at) {
  if (!given) return null;
  const [attribute, ...value] = given.split('='), wanted = value.join('=');
  const headings = (await valuesOf(list, at)).filter((heading) => heading.attribute === attribute);
  return new Set(headings.flatMap((heading) =>
    heading.values.filter((each) => String(each.value) === wanted).flatMap((each) => each.at)));
}

/**
 * The places of a list that names and values let through.
 * @param {'people' | 'resources'} list @param {Filter} filter @param {Lists} lists
 */
async function named(list, filter, lists) {
  const has = await having(list, filter[list], filter.at), text = filter.find.toLowerCase();
  const isFound = text && lists[list].some((each) => each.toLowerCase().includes(text));
  /** @type {Set<string> | null} */
  let only = null;
  if (filter.changed) {
    only = new Set([...changed.values()].filter(({ of }) => of.action === filter.action)
      .map(({ of }) => (list === 'people' ? of.person : of.resource)));
  }
  const places = [];
  for (const [place, name] of lists[list].entries()) {
    const isNamed = !isFound || name.toLowerCase().includes(text);
    if (isNamed && (!has || has.has(place)) && (!only || only.has(name))) places.push(place);
  }
  return places;
}

/**
 * Whether a text is in a name of either list.
 * @param {Filter} filter @param {Lists} lists
 */
const isAnywhere = ({ find }, lists) => !find || [...lists.people, ...lists.resources].some((each) =>
  each.toLowerCase().includes(find.toLowerCase()));

/**
 * Whether nothing is filtered, so that letters can be asked at once.
 * @param {Filter} filter
 */
export const isPlain = (filter) => !(filter.find || filter.people || filter.resources || filter.has || filter.rule
  || filter.changed);

/** @param {number[]} places @param {number} all @returns {Places | undefined} */
const some = (places, all) => (places.length === all ? undefined : { at: places });

/**
 * How many of each decision the shown names have.
 * @param {Filter} filter @param {Lists} lists @param {number[]} people @param {number[]} resources
 */
export const counted = (filter, lists, people, resources) => totals({
  action: filter.action, people: some(people, lists.people.length), resources: some(resources, lists.resources.length),
  ...ruleOf(filter.rule),
}, filter.at);

/**
 * What the filters let through.
 * @param {Filter} filter @returns {Promise<Passing>}
 */
export async function passing(filter) {
  const lists = await listsAt(filter.at);
  if (!isAnywhere(filter, lists)) return { people: [], resources: [], totals: null, serial: lists.serial };
  const [people, resources] = [await named('people', filter, lists), await named('resources', filter, lists)];
  const first = await counted(filter, lists, people, resources);
  if (!filter.has && !filter.rule) return { people, resources, totals: first.totals, serial: first.serial };
  const kind = ['P', 'D', 'N', '1'].indexOf(filter.has);
  const passes = (/** @type {Counts} */ counts) => (kind < 0 ? counts.some((n) => n > 0) : counts[kind] > 0);
  const left = people.filter((_, i) => passes(first.totals.people[i]));
  const right = resources.filter((_, i) => passes(first.totals.resources[i]));
  if (!left.length || !right.length) return { people: left, resources: right, totals: null, serial: first.serial };
  const second = await counted(filter, lists, left, right);
  return { people: left, resources: right, totals: second.totals, serial: second.serial };
}

/**
 * The rules that decide something, for a menu.
 * @param {string} at
 */
export async function deciding(at) {
  const all = (await rules(at)).filter((rule) => rule.cells > 0),
    keys = new Map(all.map((rule) => [ruleKey(rule), rule]));
  return [...keys].map(([key, rule]) => ({ key, words: `${holderOf(rule)}: ${rule.rule ?? '(by default)'}` }))
    .sort((a, b) => (a.words < b.words ? -1 : 1));
}
