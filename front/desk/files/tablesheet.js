// The table on paper: rows of text, like joined with like, in place of the screen.
import { grid, some } from './front.js';
import { ruleOf } from './filters.js';
import { DECISIONS, number } from './words.js';

/** The most cells that are read for paper. */
const MOST = 2000000;

/**
 * @param {import('./filters.js').Filter} filter @param {Lists} lists @param {import('./filters.js').Passing} passed
 * @returns {Promise<Sheet>}
 */
export async function sheetOf(filter, lists, passed) {
  const size = passed.people.length * passed.resources.length;
  if (size > MOST) throw new Error(`${number(size)} cells are too many for paper: filter them`);
  const wanted = filter.has || 'P', rows = [];
  const told = await grid({ action: filter.action, people: some(passed.people), resources: some(passed.resources) },
    filter.at);
  for (const [i, line] of told.rows.entries()) {
    /** @type {Map<string, string[]>} */
    const by = new Map();
    [...line].forEach((letter, j) => {
      const upper = letter.toUpperCase(), isWanted = wanted === '1' ? '123'.includes(letter) : upper === wanted;
      if (isWanted) by.set(upper, [...(by.get(upper) ?? []), lists.resources[passed.resources[j]]]);
    });
    for (const [letter, names] of by) {
      rows.push([lists.people[passed.people[i]], filter.action, DECISIONS[letter], names.length, names.join(', ')]);
    }
  }
  const rule = filter.rule ? ruleOf(filter.rule) : null;
  return {
    title: `${DECISIONS[wanted].replace(/ \(.*/, '')}: who to what, by ${filter.action}`,
    filter: [
      `action ${filter.action}`, ...(filter.find ? [`names with “${filter.find}”`] : []),
      ...(filter.people ? [`people: ${filter.people}`] : []), ...(filter.resources ? [`resources: ${filter.resources}`]
        : []),
      ...(rule ? [`decided by ${rule.policy}: ${rule.rule ?? 'by default'}`] : []),
      ...(filter.changed ? ['only what changed since the page was opened'] : []),
        ...(filter.at ? [`as it was on ${filter.at}`] : []),
    ],
    heads: ['Person', 'Action', 'Decision', '#Cells', 'Resources'], rows,
  };
}
