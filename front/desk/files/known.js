// What is known of a person or a resource, and rules as links: what several views show.
import { may } from './state.js';
import { el, link, listed, name, tail } from './words.js';
import { pathWords } from './cell.js';
import { holderOf } from './made.js';

/** @param {unknown} value */
const valueWords = (value) => (typeof value === 'object' ? JSON.stringify(value) : String(value));

/**
 * Where a value comes from.
 * @param {any} fact
 */
function sourceOf(fact) {
  const said = fact.issuer ? `said by ${fact.issuer}` : tail(fact.datatype);
  return fact.module_name ? `${said}, from ${fact.module_name}` : fact.module ? `${said}, module ${fact.module}` : said;
}

/**
 * The values of an entity, each of which can be tried otherwise.
 * @param {'people' | 'resources'} list @param {string} entity @param {Fact[]} facts
 */
export function knownOf(list, entity, facts) {
  if (!facts.length) return el('p.quiet', {}, 'Nothing but the name.');
  return el('table.facts.wide', { 'aria-label': 'What is known' }, facts.map((fact) => el('tr', {},
    el('th', { scope: 'row' }, name(tail(fact.attribute))), el('td', {}, name(listed(fact.values.map(valueWords)))),
    el('td.quiet', {}, name(sourceOf(fact))),
    el('td', {}, may('attr.set') ? link('try', { list, entity, attribute: fact.attribute, type: fact.datatype,
      issuer: fact.issuer,
      module: fact.module || '', values: JSON.stringify(fact.values) }, 'try another') : ''))));
}

/**
 * A rule as a link, with its path below.
 * @param {Entry} entry @param {string} at
 */
export const ruleLink = (entry, at) => el('div', {}, link('rule', { policy: holderOf(entry), rule: entry.rule,
  default: entry.rule === null ? '1' : '', at }, name(entry.rule ?? 'by default')),
    el('div.quiet', {}, name(pathWords(entry))));

/** @param {Entry[]} entries @param {string} at */
export const rulesOf = (entries, at) => entries.map((entry) => ruleLink(entry, at));

/**
 * A cell as a link, in the table of its person.
 * @param {string} person @param {string} action @param {string} resource @param {string} at @param {any} words
 */
export const cellLink = (person, action, resource, at, words) =>
  link('table', { action, find: person, person, resource, at }, words);
