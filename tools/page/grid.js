// The table of one action, drawn: only what can be seen of it, however large it is.

const SIZES = [1, 2, 3, 4, 6, 9, 14, 18, 22, 28, 36, 44];
const NOT_APPLICABLE = 2, LETTERS_FROM = 14, STRIPES_FROM = 4, LABEL = 13, GAP_FROM = 9, FAINT = 0.15;

// How each decision looks: grounds that differ in brightness too, stripes, and letters.
const LOOKS = [
  { fill: '#6fc78d', letter: '#06240f' },
  { fill: '#8f1d2c', letter: '#ffffff' },
  { fill: '#f3f4f6', letter: '#5f6873' },
  { fill: '#f2c14e', letter: '#1c2126', lines: [1] },
  { fill: '#f2c14e', letter: '#1c2126', lines: [-1] },
  { fill: '#f2c14e', letter: '#1c2126', lines: [1, -1] },
];

const scroller = field('scroller'), canvas = field('grid'), space = field('space');
const brush = canvas.getContext('2d');

// What is drawn: the action, the people and resources by their numbers, the size of a cell, the marked cell by its
// place, the filter, and the room beside and above the cells.
const view = { action: 0, rows: [], columns: [], size: 22, row: 0, column: 0, filter: null, left: 0, top: 0 };

function textFont(size, isBold) {
  return `${isBold ? 'bold ' : ''}${size}px system-ui, "Segoe UI", "DejaVu Sans", sans-serif`;
}

// The room that the longest of some names takes, but no more than so much.
function widest(names, most) {
  brush.font = textFont(LABEL, true);
  return Math.ceil(Math.min(most, 16 + Math.max(24, ...names.map((name) => brush.measureText(cut(name, 40)).width))));
}

// Makes room beside and above the cells.
function measure() {
  const [beside, above] = [scroller.clientWidth * 0.25, scroller.clientHeight * 0.3];
  view.left = widest(view.rows.map((row) => data.people[row]), Math.max(60, beside));
  view.top = widest(view.columns.map((column) => data.resources[column]), Math.max(60, above));
}

// The stripes of an Indeterminate answer, of one direction or both; in the smallest cells a dark point.
function drawLines(context, look, x, y, size) {
  if (size < STRIPES_FROM) {
    context.fillStyle = '#7a5200';
    context.fillRect(x, y, Math.ceil(size / 2), Math.ceil(size / 2));
    return;
  }
  context.save();
  context.beginPath();
  context.rect(x, y, size, size);
  context.clip();
  context.beginPath();
  for (const direction of look.lines) {
    for (let step = -size; step <= size; step += Math.max(3, size / 4)) {
      context.moveTo(x + step, direction > 0 ? y + size : y);
      context.lineTo(x + step + size, direction > 0 ? y : y + size);
    }
  }
  context.lineWidth = Math.max(1, size / 14);
  context.strokeStyle = '#7a5200';
  context.stroke();
  context.restore();
}

// The letters of a decision; over stripes they get a ground of their own.
function drawLetter(context, decision, x, y, size) {
  const look = LOOKS[decision], isQuiet = decision === NOT_APPLICABLE;
  const height = Math.max(9, Math.round(size * (isQuiet || SHORT[decision].length > 1 ? 0.45 : 0.6)));
  context.font = textFont(height, !isQuiet);
  context.textAlign = 'center';
  context.textBaseline = 'middle';
  if (look.lines) {
    const width = context.measureText(SHORT[decision]).width + 2;
    context.fillStyle = look.fill;
    context.fillRect(x + (size - width) / 2, y + size / 2 - height / 2, width, height);
  }
  context.fillStyle = look.letter;
  context.fillText(SHORT[decision], x + size / 2, y + size / 2 + 0.5);
}

// The mark of a changed cell: a corner, or in small cells a frame.
function drawChange(context, x, y, size) {
  if (size < LETTERS_FROM - 1) {
    context.strokeStyle = '#0b1f66';
    context.lineWidth = Math.max(1, size / 5);
    const half = context.lineWidth / 2;
    context.strokeRect(x + half, y + half, size - context.lineWidth, size - context.lineWidth);
    return;
  }
  for (const [part, colour] of [[0.5, '#ffffff'], [0.4, '#0b1f66']]) {
    context.beginPath();
    context.moveTo(x + size * (1 - part), y);
    context.lineTo(x + size, y);
    context.lineTo(x + size, y + size * part);
    context.fillStyle = colour;
    context.fill();
  }
}

// The mark of a cell whose answer has obligations or advice: a bar below the letter.
function drawDuties(context, letter, x, y, size) {
  const height = Math.max(2, Math.round(size / 14));
  context.fillStyle = letter;
  context.fillRect(x + size * 0.25, y + size - 2 * height, size * 0.5, height);
}

// One cell: its decision, whether it changed, has duties, and is faint since the filter doesn't ask for it.
function drawCell(context, { decision, isChanged, hasDuties, isFaint: isPale }, x, y, size) {
  if (decision < 0) return;
  const look = LOOKS[decision], isLarge = size >= LETTERS_FROM - 1;
  context.globalAlpha = isPale ? FAINT : 1;
  context.fillStyle = look.fill;
  context.fillRect(x, y, size, size);
  if (look.lines) drawLines(context, look, x, y, size);
  if (isLarge) drawLetter(context, decision, x, y, size);
  if (isLarge && hasDuties) drawDuties(context, look.letter, x, y, size);
  if (isChanged) drawChange(context, x, y, size);
  context.globalAlpha = 1;
}

// The first and last place along a side that can be seen.
function visible(start, room, count) {
  return [Math.max(0, Math.floor(start / view.size)), Math.min(count - 1, Math.floor((start + room) / view.size))];
}

// Whether the filter doesn't ask for a cell.
function isFaint(cell) {
  return view.filter.asked && !view.filter.passes[cell];
}

// The cells that can be seen: small ones as one picture, and then those alone that have more to show than a ground.
function drawCells([firstRow, lastRow], [firstColumn, lastColumn]) {
  if (lastRow < firstRow || lastColumn < firstColumn) return;
  const isSmall = view.size < GAP_FROM, gap = isSmall ? 0 : 1;
  if (isSmall) drawGrounds([firstRow, lastRow], [firstColumn, lastColumn]);
  for (let row = firstRow; row <= lastRow; row += 1) {
    for (let column = firstColumn; column <= lastColumn; column += 1) {
      const cell = cellOf(view.rows[row], view.action, view.columns[column]);
      if (isSmall && isPlain(cell)) continue;
      const [x, y] = placeOf(row, column), size = Math.max(1, placeOf(row, column + 1)[0] - x - gap);
      const marks = { isChanged: changed.has(cell), hasDuties: hasDuties(cell), isFaint: isFaint(cell) };
      drawCell(brush, { decision: decisionOf(cell), ...marks }, x, y, size);
    }
  }
}

// Whether a small cell shows nothing but the ground of its decision.
function isPlain(cell) {
  const decision = decisionOf(cell);
  return decision >= 0 && !LOOKS[decision].lines && !changed.has(cell);
}

// The grounds of small cells: a picture with a point for each, made larger.
function drawGrounds([firstRow, lastRow], [firstColumn, lastColumn]) {
  const picture = document.createElement('canvas');
  picture.width = lastColumn - firstColumn + 1;
  picture.height = lastRow - firstRow + 1;
  const pen = picture.getContext('2d'), points = pen.createImageData(picture.width, picture.height);
  const colours = LOOKS.map(({ fill }) => [1, 3, 5].map((at) => parseInt(fill.slice(at, at + 2), 16)));
  for (let at = 0; at < picture.width * picture.height; at += 1) {
    const row = view.rows[firstRow + Math.floor(at / picture.width)];
    const cell = cellOf(row, view.action, view.columns[firstColumn + (at % picture.width)]);
    if (isPlain(cell)) points.data.set([...colours[decisionOf(cell)], isFaint(cell) ? FAINT * 255 : 255], 4 * at);
  }
  pen.putImageData(points, 0, 0);
  const [left, top] = placeOf(firstRow, firstColumn), [right, bottom] = placeOf(lastRow + 1, lastColumn + 1);
  brush.imageSmoothingEnabled = false;
  brush.drawImage(picture, left, top, right - left, bottom - top);
}

// Where a cell stands on the canvas, in whole points: cells of a broken size are wider and narrower by turns.
function placeOf(row, column) {
  const x = view.left + Math.round(column * view.size) - Math.round(scroller.scrollLeft);
  const y = view.top + Math.round(row * view.size) - Math.round(scroller.scrollTop);
  return [x, y];
}

// What was found to fit, by font, room and text.
const fits = new Map();

// A text, or as much of it as there is room for.
function fitted(text, room) {
  const key = `${brush.font} ${room} ${text}`;
  if (!fits.has(key)) {
    let most = [...text].length;
    while (most > 2 && brush.measureText(shortened(text, most)).width > room) most -= 1;
    fits.set(key, shortened(text, most));
  }
  return fits.get(key);
}

// One name beside a row, or turned above a column.
function drawLabel(text, isMarked, isTurned, x, y, room) {
  brush.save();
  brush.translate(x, y);
  if (isTurned) brush.rotate(-Math.PI / 2);
  brush.font = textFont(LABEL, isMarked);
  brush.textAlign = isTurned ? 'left' : 'right';
  brush.textBaseline = 'middle';
  const part = fitted(cut(text, 40), room);
  if (isMarked) {
    const width = brush.measureText(part).width;
    brush.fillStyle = '#1c2126';
    const height = Math.min(LABEL + 4, Math.max(LABEL + 1, view.size));
    brush.fillRect(isTurned ? -2 : -width - 2, -height / 2, width + 4, height);
  }
  brush.fillStyle = isMarked ? '#ffffff' : '#1c2126';
  brush.fillText(part, 0, 0);
  brush.restore();
}

// The names along a side: of small cells only some of them, and always that of the marked cell.
function drawLabels(isTurned, [first, last], names, marked) {
  const step = Math.max(1, Math.ceil(LABEL / view.size)), room = (isTurned ? view.top : view.left) - 8;
  const from = isTurned ? view.left : view.top, to = isTurned ? scroller.clientWidth : scroller.clientHeight;
  const draw = (place) => {
    const [x, y] = placeOf(place, place), middle = (isTurned ? x : y) + view.size / 2;
    if (middle < from || middle > to) return;
    const at = isTurned ? [middle, view.top - 6] : [view.left - 6, middle];
    drawLabel(names[place], place === marked, isTurned, ...at, room);
  };
  for (let place = Math.ceil(first / step) * step; place <= last; place += step) {
    if (place !== marked && (step === 1 || Math.abs(place - marked) * view.size > LABEL)) draw(place);
  }
  if (marked >= first && marked <= last) draw(marked);
}

// The frame of the marked cell, which can be seen on every ground.
function drawMark() {
  const [x, y] = placeOf(view.row, view.column), size = Math.max(view.size, 5);
  for (const [width, colour] of [[5, '#ffffff'], [3, '#1c2126']]) {
    brush.strokeStyle = colour;
    brush.lineWidth = width;
    brush.strokeRect(x - 1, y - 1, size + 1, size + 1);
  }
}

// Sets the canvas to the size of its room, in the points of the screen.
function fit() {
  const ratio = window.devicePixelRatio || 1, width = scroller.clientWidth, height = scroller.clientHeight;
  if (canvas.width !== Math.round(width * ratio) || canvas.height !== Math.round(height * ratio)) {
    canvas.width = Math.round(width * ratio);
    canvas.height = Math.round(height * ratio);
    canvas.style.width = `${width}px`;
    canvas.style.height = `${height}px`;
  }
  brush.setTransform(ratio, 0, 0, ratio, 0, 0);
  brush.clearRect(0, 0, width, height);
  return [width, height];
}

// Draws what can be seen.
function draw() {
  const [width, height] = fit();
  const rows = visible(scroller.scrollTop, height - view.top, view.rows.length);
  const columns = visible(scroller.scrollLeft, width - view.left, view.columns.length);
  brush.save();
  brush.beginPath();
  brush.rect(view.left - 3, view.top - 3, width, height);
  brush.clip();
  drawCells(rows, columns);
  if (view.rows.length && view.columns.length) drawMark();
  brush.restore();
  brush.clearRect(0, 0, view.left - 3, height);
  brush.clearRect(0, 0, width, view.top - 3);
  drawLabels(false, rows, view.rows.map((row) => data.people[row]), view.row);
  drawLabels(true, columns, view.columns.map((column) => data.resources[column]), view.column);
  if (!view.rows.length) drawNothing(width);
  const { left, top, size } = view;
  Object.assign(scroller.dataset, { left, top, size, rows: view.rows.length, columns: view.columns.length });
}

// Says that there is no cell to draw.
function drawNothing(width) {
  brush.font = textFont(15, false);
  brush.textAlign = 'center';
  brush.fillStyle = '#1c2126';
  const words = data.cells.length ? 'No cell of this action passes the filters.' : 'The table has no cells.';
  brush.fillText(words, width / 2, 60);
}

let isWaiting = false;

// Draws before the screen is painted next, once for all that asked.
function drawSoon() {
  if (isWaiting) return;
  isWaiting = true;
  requestAnimationFrame(() => {
    isWaiting = false;
    draw();
  });
}

// Takes other rows and columns, or another size, and keeps the mark inside.
function layOut() {
  measure();
  view.row = Math.max(0, Math.min(view.row, view.rows.length - 1));
  view.column = Math.max(0, Math.min(view.column, view.columns.length - 1));
  space.style.width = `${view.left + view.columns.length * view.size + 4}px`;
  space.style.height = `${view.top + view.rows.length * view.size + 4}px`;
  drawSoon();
}

// The size at which the whole table can be seen, but no smaller than the least given.
function fitting(least) {
  const beside = (scroller.clientWidth - view.left - 20) / Math.max(1, view.columns.length);
  const below = (scroller.clientHeight - view.top - 20) / Math.max(1, view.rows.length);
  const size = Math.min(SIZES[SIZES.length - 1], beside, below);
  return Math.max(least, size < STRIPES_FROM ? size : Math.floor(size));
}

// Scrolls as little as needed for the marked cell to be seen.
function bringIntoView() {
  const [x, y] = [view.column * view.size, view.row * view.size];
  const room = [scroller.clientWidth - view.left, scroller.clientHeight - view.top];
  scroller.scrollLeft = Math.min(x, Math.max(scroller.scrollLeft, x + view.size + 4 - room[0]));
  scroller.scrollTop = Math.min(y, Math.max(scroller.scrollTop, y + view.size + 4 - room[1]));
}

// The place of the cell under a point of the canvas; null for none.
function placeAt(x, y) {
  const row = Math.floor((y - view.top + scroller.scrollTop) / view.size);
  const column = Math.floor((x - view.left + scroller.scrollLeft) / view.size);
  const isInside = x >= view.left && y >= view.top && row < view.rows.length && column < view.columns.length;
  return isInside ? { row, column } : null;
}

// The number of the cell at a place.
function cellAt({ row, column }) {
  return cellOf(view.rows[row], view.action, view.columns[column]);
}
