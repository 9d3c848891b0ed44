// What is said of a cell: in a note beside it, and in full at the side.

const note = field('note');
const MOST = 200;

// A new element with a text in it.
function element(name, text, kind) {
  const made = document.createElement(name);
  if (text !== undefined) made.textContent = text;
  if (kind) made.className = kind;
  return made;
}

// The small picture of a cell.
function swatch(look) {
  const made = element('canvas', undefined, 'swatch');
  made.width = made.height = 22;
  made.setAttribute('aria-hidden', 'true');
  drawCell(made.getContext('2d'), look, 0, 0, 22);
  return made;
}

// Draws the pictures of the legend.
function drawLegend() {
  for (const made of document.querySelectorAll('#legend canvas')) {
    const { decision, mark } = made.dataset;
    const look = { decision: Number(decision), isChanged: mark === 'changed', hasDuties: mark === 'duties' };
    drawCell(made.getContext('2d'), look, 0, 0, 22);
  }
  const withDuties = data.cells.reduce((sum, _, cell) => sum + Number(hasDuties(cell)), 0);
  field('duties-legend').querySelector('b').textContent = String(withDuties);
  field('changed-legend').querySelector('b').textContent = String(changed.size);
  field('changed-legend').hidden = !comparing;
}

// Shows the note of a cell beside a point of the window, on the side where there is room.
function showNote(cell, x, y) {
  note.replaceChildren(...lines(cell).map((line) => element('p', line)));
  note.hidden = false;
  const { width, height } = note.getBoundingClientRect();
  const beside = (at, size, room) => Math.max(0, at + 18 + size > room ? at - size - 12 : at + 18);
  note.style.left = `${beside(x, width, window.innerWidth)}px`;
  note.style.top = `${beside(y, height, window.innerHeight)}px`;
}

function hideNote() {
  note.hidden = true;
}

// An entry of why: the rule, and the path to it.
function whyElement(entry) {
  const made = element('div', undefined, 'path');
  const [, rule] = ruleName(entry);
  made.append(element('b', rule === null ? '(by default)' : shown(rule)));
  const path = entry.path.map((key) => key.map(shown).join(' ')).join(' › ');
  made.append(element('div', path, 'quiet'));
  return made;
}

// An obligation or an advice with its assignments.
function givenElement(given) {
  const made = element('div', undefined, 'given'), table = element('table');
  made.append(element('b', shown(given.Id)));
  for (const each of given.AttributeAssignment) {
    const row = element('tr'), value = element('td', valueWords(each.Value));
    const more = ['Category', 'Issuer'].filter((key) => key in each).map((key) => `${key} ${valueWords(each[key])}`);
    value.append(' ', element('span', [typeWords(each.DataType), ...more].join(', '), 'type'));
    row.append(element('td', valueWords(each.AttributeId)), value);
    table.append(row);
  }
  if (given.AttributeAssignment.length) made.append(table);
  return made;
}

// A heading with what is listed under it.
function part(heading, members, none) {
  return [element('h3', heading), ...(members.length ? members : [element('p', none, 'quiet')])];
}

// All that is known of an answer.
function answerElements(told) {
  if (told === null) return [element('p', 'Not listed: it had no answer.')];
  const decision = element('p', undefined, 'decision');
  decision.append(swatch({ decision: told.decision }), decisionWords(told.decision));
  if (told.status === null) return [decision, element('p', 'Notices tell the decision alone.', 'quiet')];
  return [
    decision,
    ...part('Status', [element('p', shown(told.status))]),
    ...part('Decided by', told.why.map(whyElement), 'no rule'),
    ...part('Obligations', told.obligations.map(givenElement), 'none'),
    ...part('Advice', told.advice.map(givenElement), 'none'),
  ];
}

// Shows a cell in full at the side.
function showCell(cell) {
  const now = answer(data.cells[cell]);
  const told = now === null ? [element('p', 'The table has no such cell.')] : answerElements(now);
  field('cell').replaceChildren(element('h2', requestWords(cell, 300)), ...told);
  if (changed.has(cell)) {
    const before = element('div', undefined, 'before');
    before.append(element('h3', 'Before'), ...answerElements(answer(changed.get(cell))));
    field('cell').append(before);
  }
}

// Says at the side what can be done, as long as no cell was chosen.
function showHelp() {
  const words = 'Click a cell, or go to it with the arrow keys and press Enter: here stands what decided it, with its '
    + 'obligations, advice and status.';
  field('cell').replaceChildren(element('h2', 'A cell in full'), element('p', words, 'quiet'));
}

// Fills a list at the side with the first of many things.
function fillList(list, heading, all, make) {
  list.querySelector('summary').textContent = heading;
  list.querySelector('ol').replaceChildren(...all.slice(0, MOST).map((each) => {
    const item = element('li');
    item.append(make(each));
    return item;
  }));
  const more = all.length - MOST;
  list.querySelector('.more').textContent = more > 0 ? `and ${more} more: filter to see them` : '';
}

// Lists what the filters let through, or else what changed; each leads to its cell.
function listCells(filter, goTo) {
  const isFiltered = filter.asked || field('person').value !== '' || field('resource').value !== '';
  const passing = () => Array.from(filter.passes.keys()).filter((cell) => filter.passes[cell]);
  const all = isFiltered ? passing() : [...changed.keys()];
  const heading = isFiltered ? `Cells that pass the filters: ${all.length}` : `Changed cells: ${all.length}`;
  field('list').hidden = !isFiltered && !comparing;
  fillList(field('list'), heading, all, (cell) => {
    const made = element('button', requestWords(cell, 40));
    const was = changed.has(cell) ? `${beforeWords(cell)} → ` : '';
    made.append(element('div', was + decisionWords(decisionOf(cell)), 'quiet'));
    made.addEventListener('click', () => goTo(cell));
    return made;
  });
}

// Lists the requests of the older table that aren't listed any more.
function listGone() {
  field('gone').hidden = data.gone.length === 0;
  fillList(field('gone'), `No longer listed: ${data.gone.length}`, data.gone, ([person, action, resource, was]) => {
    const names = [person, action, resource].map((name) => cut(name, 40)).join(' · ');
    return element('p', `${names}: ${decisionWords(answer(was).decision)}`);
  });
}
