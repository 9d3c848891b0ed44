// What is to be revoked and is still there: each task with who asked and why, and which value's end would take it away.
import { may } from './state.js';
import { openCell, pathWords } from './cell.js';
import { gathered } from './made.js';
import { trial } from './trying.js';
import { el, few, link, listed, name, number, plural, tableOf, tail } from './words.js';
import { doneBy } from './reviewing.js';
import { who } from './called.js';

const LISTS = /** @type {Record<string, string>} */ ({ 'access-subject': 'people', resource: 'resources',
  action: 'actions' });
const CATEGORIES = /** @type {Record<string, string>} */ ({ people: 'AccessSubject', resources: 'Resource',
  actions: 'Action' });

/**
 * The edit that takes a value away.
 * @param {any} fact
 */
const endOf = (fact) => ({
  do: 'attr.set', category: CATEGORIES[LISTS[tail(fact.category)]], entity: fact.entity, attribute: fact.attribute,
  type: fact.datatype, values: [], ...(fact.issuer && { issuer: fact.issuer }),
  ...(fact.module && { module: fact.module }),
});

/**
 * The values of the person and the resource that gave a task's answer, each once.
 * @param {Task[]} group
 */
function valuesOf(group) {
  const facts = group.flatMap(({ explain }) => explain?.facts ?? []).filter((fact) => 'attribute' in fact && fact.entity
    && fact.values.length && LISTS[tail(fact.category)]);
  return gathered(facts, (fact) => JSON.stringify(endOf(fact))).map(([fact]) => fact);
}

/**
 * Whether a change takes away what a task is of.
 * @param {Change} change @param {Task[]} group
 */
const isOf = (change, group) => change.before === 'Permit' && change.after !== 'Permit' && group.some((task) =>
  task.person === change.person && task.action === change.action && task.resource === change.resource);

/**
 * Tries which value's end takes a task's cells away, one behind the other; nothing is kept.
 * @param {Task[]} group @param {HTMLElement} place
 */
async function tryEnds(group, place) {
  const rows = /** @type {any[]} */ ([]);
  place.replaceChildren(el('p.quiet', { role: 'status' }, 'Trying ..'));
  for (const fact of valuesOf(group)) {
    const told = await trial(endOf(fact)).catch((/** @type {Error} */ fault) => fault);
    const words = `${tail(fact.attribute)} of ${fact.entity}: ${listed(fact.values.map(String))}`;
    const to = link('try', { list: LISTS[tail(fact.category)], entity: fact.entity, attribute: fact.attribute,
      type: fact.datatype, issuer: fact.issuer, module: fact.module || '', values: '' }, 'try it');
    if (told instanceof Error) {
      rows.push([name(words), '', '', '', el('span.quiet', {}, told.message)]);
      continue;
    }
    const gone = told.changes.filter((change) => isOf(change, group)).length;
    rows.push([name(words), `${number(gone)} of ${plural(group.length, 'cell')}`, number(told.counts.lost),
      number(told.counts.gained), to]);
  }
  place.replaceChildren(el('div', {}, el('p', { role: 'status' }, rows.length
    ? 'Without the value, so much of this task would be gone, and so many Permits in all:'
    : 'No value of the person or the resource gave this.'),
  rows.length ? tableOf(['Value', 'Of this task', '#Permits lost', '#Gained', ''], rows, 'What would take it away')
    : null));
}

/**
 * The rules of a task's answer.
 * @param {Task} task
 */
const ruleWords = ({ explain }) => (explain?.answer.why ?? []).map((entry) => el('div', {}, name(entry.rule
  ?? 'by default'), el('div.quiet', {}, name(pathWords(entry)))));

/**
 * A task: cells of one person and action that were asked to go by one act.
 * @param {Task[]} group
 */
function taskRow(group) {
  const [task] = group, place = el('div'), canTry = may('attr.set') && may('table');
  const below = el('tr.below', { hidden: true }, el('td', { colspan: 5 }, place));
  const cell = (/** @type {string} */ resource) => (may('explain') ? el('button.link', { type: 'button',
    onclick: () => openCell(task.person, task.action, resource, '') }, name(resource)) : name(resource));
  return [el('tr', {}, el('td', {}, may('names') ? link('person', { person: task.person }, who(task.person))
    : who(task.person)), el('td', {}, name(task.action)), el('td', {}, few(group.map(({ resource }) => resource),
    cell)), el('td', {}, ruleWords(task)),
  el('td', {}, '“', name(task.signed.why ?? ''), '”', el('div.quiet', {}, name(doneBy(task.signed))),
    canTry ? el('p.acts', {}, el('button', { type: 'button', onclick: () => {
      below.hidden = false;
      tryEnds(group, place);
    } }, 'What would take it away?')) : null)), below];
}

/** @param {{tasks: Task[], more: boolean}} told */
export function tasksTable({ tasks, more }) {
  if (!tasks.length) return el('p.quiet', {}, 'Nothing.');
  const groups = gathered(tasks, ({ person, action, signed, explain }) =>
    JSON.stringify([person, action, signed.serial, (explain?.answer.why ?? []).map((entry) => entry.rule)]));
  return [el('p.quiet', {}, 'A task closes by itself as soon as its answer is no Permit any more.'),
    tableOf(['Person', 'Action', 'Resources', 'Given by', 'Why it is to go'], groups.flatMap(taskRow), 'Tasks'),
    more ? el('p.quiet', {}, 'More come once these are done.') : null];
}
