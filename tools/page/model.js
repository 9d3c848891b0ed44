// What the page shows: the table, and what is said of a cell in words.

const data = JSON.parse(document.getElementById('data').textContent);
const people = data.people.length, actions = data.actions.length, resources = data.resources.length;

// How many cells there are: tables that stand side by side needn't have each person with each resource.
const listed = data.cells.reduce((sum, number) => sum + Number(number >= 0), 0);

// Each changed cell's answer before, by the cell's number; -1 where the request wasn't listed.
const changed = new Map(data.changed || []);
const comparing = data.changed !== null;

const SHORT = ['P', 'D', 'N', '?P', '?D', '?'];
const INVISIBLE = /(?! )[\p{C}\p{Z}\p{DI}]/gu;
const TYPE = 'http://www.w3.org/2001/XMLSchema#';

// A text as a reader can tell it from every other: what can't be seen, or turns the direction of writing, is named.
function shown(text) {
  const code = (letter) => letter.codePointAt(0).toString(16).toUpperCase().padStart(4, '0');
  const named = text.replace(INVISIBLE, (letter) => `⟨${code(letter)}⟩`);
  return named.replace(/^ | $|(?<= ) /g, '⟨0020⟩');
}

// A text of so many letters at most: of a longer one the middle is left out, since names often differ at their ends.
function shortened(text, most) {
  const letters = [...text];
  if (letters.length <= most) return text;
  const head = Math.ceil((most - 1) / 2), tail = most - 1 - head;
  return `${letters.slice(0, head).join('')}…${letters.slice(letters.length - tail).join('')}`;
}

// A text as a reader can tell it from others, of so many letters at most.
function cut(text, most) {
  return shortened(shown(text), most);
}

// The number of the cell of a person, an action and a resource, by their numbers.
function cellOf(person, action, resource) {
  return (person * actions + action) * resources + resource;
}

// The person, action and resource of a cell, by their numbers.
function requestOf(cell) {
  const row = Math.floor(cell / resources);
  return [Math.floor(row / actions), row % actions, cell % resources];
}

// The answer with a number, taken apart; null for none.
function answer(number) {
  if (number < 0) return null;
  const [decision, status, why, obligations, advice] = data.answers[number];
  const parts = (list) => list.map((part) => data.parts[part]);
  return { decision, status, why: parts(why), obligations: parts(obligations), advice: parts(advice) };
}

// The number of a cell's decision; -1 where the table doesn't have the cell.
function decisionOf(cell) {
  const number = data.cells[cell];
  return number < 0 ? -1 : data.answers[number][0];
}

// Whether the answer of a cell has obligations or advice.
function hasDuties(cell) {
  const number = data.cells[cell];
  return number >= 0 && data.answers[number][3].length + data.answers[number][4].length > 0;
}

// What gave a decision: the id of the policy or set in which it stands, and the rule, or that it is its default.
function ruleName(entry) {
  const [, id] = entry.path[entry.path.length - 1];
  return [id, entry.rule];
}

// The same in words.
function ruleWords([policy, rule]) {
  return shown(policy) + ': ' + (rule === null ? '(by default)' : shown(rule));
}

// A decision in words.
function decisionWords(decision) {
  return decision < 0 ? 'not listed' : data.decisions[decision];
}

// A value of an assignment as text.
function valueWords(value) {
  return typeof value === 'string' ? shown(value) : JSON.stringify(value);
}

// The short name of a data type.
function typeWords(type) {
  const text = String(type);
  return shown(text.startsWith(TYPE) ? text.slice(TYPE.length) : text);
}

// The names of a request, each cut where it is longer than so many letters.
function requestWords(cell, most) {
  const [person, action, resource] = requestOf(cell);
  const names = [data.people[person], data.actions[action], data.resources[resource]];
  return names.map((name) => cut(name, most)).join(' · ');
}

// The first few of a list in words, and how many more there are.
function fewWords(list, words) {
  return list.slice(0, 3).map(words).join(', ') + (list.length > 3 ? `, and ${list.length - 3} more` : '');
}

// What a note says of a cell, line by line.
function lines(cell) {
  const told = [requestWords(cell, 60)], now = answer(data.cells[cell]);
  if (now === null) {
    told.push('not in this table');
  } else {
    told.push(decisionWords(now.decision) + (now.status === 'ok' ? '' : `, ${shown(now.status)}`));
    if (now.why.length) told.push('decided by ' + fewWords(now.why, (entry) => ruleWords(ruleName(entry))));
    if (now.obligations.length) told.push('obligations: ' + fewWords(now.obligations, (given) => cut(given.Id, 60)));
    if (now.advice.length) told.push('advice: ' + fewWords(now.advice, (given) => cut(given.Id, 60)));
  }
  if (changed.has(cell)) told.push('before: ' + beforeWords(cell));
  return told;
}

// What a changed cell was before, in a word or two.
function beforeWords(cell) {
  const was = answer(changed.get(cell)), now = answer(data.cells[cell]);
  if (was === null) return 'not listed';
  const same = now !== null && was.decision === now.decision;
  return decisionWords(was.decision) + (same ? ', for another reason' : '');
}
