// Which cells a reader wants to see.

const field = (id) => document.getElementById(id);

// The rules that decide somewhere in the table, each with its number, in order.
const rules = [];

// For each part of an answer that is an entry of why, the number of its rule.
const ruleOfPart = new Map();

function collectRules() {
  const numbers = new Map();
  const used = new Set(data.answers.flatMap((each) => each[2]));
  for (const part of used) {
    const name = ruleName(data.parts[part]), key = JSON.stringify(name);
    if (!numbers.has(key)) {
      numbers.set(key, rules.length);
      rules.push(name);
    }
    ruleOfPart.set(part, numbers.get(key));
  }
}

// Puts an option into a select or a list of suggestions.
function addOption(parent, value, words) {
  const option = document.createElement('option');
  option.value = value;
  option.textContent = words;
  parent.append(option);
}

function fillFilters() {
  collectRules();
  const order = rules.map((name, number) => [ruleWords(name), number]).sort(([a], [b]) => (a < b ? -1 : Number(a > b)));
  for (const [words, number] of order) addOption(field('rule'), String(number), cut(words, 80));
  for (const [number, words] of data.decisions.entries()) addOption(field('decision'), String(number), words);
  addOption(field('decision'), 'indeterminate', 'Indeterminate of any kind');
  for (const name of data.people) addOption(field('people'), name, '');
  for (const name of data.resources) addOption(field('resources'), name, '');
  field('changed-label').hidden = !comparing;
}

// Whether a name has a text in it, in whatever case; the empty text is in each.
function isNamed(name, text) {
  return name.toLowerCase().includes(text.toLowerCase());
}

// Whether an answer is one that the filters of rule and decision let through, by its number.
function passingAnswers(rule, decision) {
  return data.answers.map(([own, , why]) => {
    const decided = decision === '' || String(own) === decision || (decision === 'indeterminate' && own >= 3);
    return decided && (rule === '' || why.some((part) => String(ruleOfPart.get(part)) === rule));
  });
}

// What the filters let through: its cells, for each action how many, and whether they ask for cells and not only names.
function filtered() {
  const rule = field('rule').value, decision = field('decision').value, only = field('changed').checked;
  const passing = passingAnswers(rule, decision);
  const isPerson = data.people.map((name) => isNamed(name, field('person').value));
  const isResource = data.resources.map((name) => isNamed(name, field('resource').value));
  const passes = new Uint8Array(data.cells.length), found = new Array(actions).fill(0);
  for (let cell = 0; cell < passes.length; cell += 1) {
    const [person, action, resource] = requestOf(cell), number = data.cells[cell];
    const isAsked = number >= 0 && passing[number] && (!only || changed.has(cell));
    if (isAsked && isPerson[person] && isResource[resource]) {
      passes[cell] = 1;
      found[action] += 1;
    }
  }
  return { passes, found, asked: rule !== '' || decision !== '' || only };
}

// The numbers of the people and of the resources that have a cell to show under an action.
function shownNames(filter, action) {
  const rows = new Set(), columns = new Set();
  for (let person = 0; person < people; person += 1) {
    for (let resource = 0; resource < resources; resource += 1) {
      if (filter.passes[cellOf(person, action, resource)]) {
        rows.add(person);
        columns.add(resource);
      }
    }
  }
  return { rows: [...rows].sort((a, b) => a - b), columns: [...columns].sort((a, b) => a - b) };
}
