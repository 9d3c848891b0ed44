// What a reader does, and what it leads to.

// How many letters a tab has room for.
const TAB = 26;

// Shows the action with a number.
function showAction(action) {
  view.action = action;
  for (const [number, tab] of [...field('tabs').children].entries()) {
    tab.setAttribute('aria-selected', String(number === action));
    tab.tabIndex = number === action ? 0 : -1;
  }
  const name = action < actions ? `${shown(data.actions[action])}: people by resources` : 'no cells';
  scroller.setAttribute('aria-label', name);
  Object.assign(view, shownNames(view.filter, action));
  hideNote();
  layOut();
}

// Makes a tab for each action.
function makeTabs() {
  for (const [number, name] of data.actions.entries()) {
    const tab = element('button', cut(name, TAB));
    tab.type = 'button';
    tab.setAttribute('role', 'tab');
    tab.setAttribute('aria-controls', 'scroller');
    tab.addEventListener('click', () => showAction(number));
    field('tabs').append(tab);
  }
  field('tabs').addEventListener('keydown', (event) => {
    const moves = { ArrowLeft: view.action - 1, ArrowRight: view.action + 1, Home: 0, End: actions - 1 };
    if (!(event.key in moves) || actions === 0) return;
    event.preventDefault();
    showAction((moves[event.key] + actions) % actions);
    field('tabs').children[view.action].focus();
  });
}

// Takes the filters as they are now.
function filter() {
  view.filter = filtered();
  const all = view.filter.found.reduce((sum, count) => sum + count, 0);
  const isAll = all === listed;
  const cells = listed === 1 ? '1 cell' : `${listed} cells`;
  field('matches').textContent = isAll ? cells : `${all} of ${cells}`;
  for (const [number, tab] of [...field('tabs').children].entries()) {
    tab.textContent = cut(data.actions[number], TAB) + (isAll ? '' : ` (${view.filter.found[number]})`);
  }
  listCells(view.filter, goTo);
  showAction(view.action);
}

// Marks a cell, says it, and shows its note.
function mark(place, isNoted) {
  Object.assign(view, place);
  bringIntoView();
  draw();
  if (!view.rows.length) return;
  const [x, y] = placeOf(view.row, view.column), frame = canvas.getBoundingClientRect();
  field('spoken').textContent = lines(cellAt(view)).join('. ');
  if (isNoted) showNote(cellAt(view), frame.left + x + view.size / 2, frame.top + y + view.size / 2);
}

// Goes to a cell, and shows it in full.
function goTo(cell) {
  const [person, action, resource] = requestOf(cell);
  if (action !== view.action) showAction(action);
  const place = { row: view.rows.indexOf(person), column: view.columns.indexOf(resource) };
  if (place.row < 0 || place.column < 0) return;
  mark(place, false);
  showCell(cell);
}

// The place to which a key moves the mark; null for any other key.
function moved(event) {
  const page = Math.max(1, Math.floor((scroller.clientHeight - view.top) / view.size) - 1);
  const [lastRow, lastColumn] = [view.rows.length - 1, view.columns.length - 1];
  const isFar = event.ctrlKey || event.metaKey, { row, column } = view;
  const moves = {
    ArrowUp: [isFar ? 0 : row - 1, column],
    ArrowDown: [isFar ? lastRow : row + 1, column],
    ArrowLeft: [row, isFar ? 0 : column - 1],
    ArrowRight: [row, isFar ? lastColumn : column + 1],
    Home: [isFar ? 0 : row, 0],
    End: [isFar ? lastRow : row, lastColumn],
    PageUp: [row - page, column],
    PageDown: [row + page, column],
  };
  if (!(event.key in moves)) return null;
  const [toRow, toColumn] = moves[event.key];
  return { row: Math.max(0, Math.min(toRow, lastRow)), column: Math.max(0, Math.min(toColumn, lastColumn)) };
}

// What the keys do in the table.
function onKey(event) {
  const place = moved(event);
  if (place !== null) {
    event.preventDefault();
    mark(place, true);
  } else if ((event.key === 'Enter' || event.key === ' ') && view.rows.length) {
    event.preventDefault();
    showCell(cellAt(view));
  } else if (event.key === 'Escape') {
    hideNote();
  }
}

// What the pointer does in the table.
function listenToPointer() {
  const under = (event) => {
    const frame = canvas.getBoundingClientRect();
    return placeAt(event.clientX - frame.left, event.clientY - frame.top);
  };
  canvas.addEventListener('mousemove', (event) => {
    const place = under(event);
    if (place === null) hideNote();
    else showNote(cellAt(place), event.clientX, event.clientY);
  });
  canvas.addEventListener('mouseleave', hideNote);
  canvas.addEventListener('click', (event) => {
    const place = under(event);
    if (place === null) return;
    mark(place, false);
    showCell(cellAt(place));
  });
}

// Takes another size of cells.
function resize(size) {
  view.size = size;
  layOut();
  bringIntoView();
  hideNote();
}

// The next size below or above the present one.
function nextSize(isLarger) {
  const more = SIZES.filter((size) => (isLarger ? size > view.size : size < view.size));
  if (!more.length) return view.size;
  return isLarger ? more[0] : more[more.length - 1];
}

// Listens to all that a reader can do.
function listen() {
  scroller.addEventListener('keydown', onKey);
  scroller.addEventListener('blur', hideNote);
  scroller.addEventListener('scroll', drawSoon);
  window.addEventListener('resize', layOut);
  listenToPointer();
  for (const kind of ['input', 'change']) field('filters').addEventListener(kind, filter);
  field('filters').addEventListener('submit', (event) => event.preventDefault());
  field('filters').addEventListener('reset', () => setTimeout(filter));
  field('smaller').addEventListener('click', () => resize(nextSize(false)));
  field('larger').addEventListener('click', () => resize(nextSize(true)));
  field('whole').addEventListener('click', () => resize(fitting(SIZES[0])));
}

fillFilters();
drawLegend();
makeTabs();
listen();
showHelp();
listGone();
field('list').open = true;
filter();
view.size = fitting(LETTERS_FROM);
layOut();
