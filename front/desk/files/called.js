// What people are called, where the front knows by which attribute: it stands beside names, and is asked of many at
// once.
import { ask, query } from './ask.js';
import { desk, may } from './state.js';
import { el, name, shown } from './words.js';

/** How many people are asked for at once. */
const MOST = 200;

/** @type {Map<string, string>} */
const known = new Map();
/** @type {Map<string, HTMLElement[]>} */
const waiting = new Map();
/** @type {Set<() => void>} who draws names anew, once more of them are known */
const drawing = new Set();
let late = 0;

/** @param {HTMLElement} place @param {string} called */
function fill(place, called) {
  place.textContent = called ? ` ${shown(called)}` : '';
}

/**
 * Takes what people are called; nothing of those who aren't named.
 * @param {string[]} people @param {Record<string, string>} called
 */
export function learn(people, called) {
  for (const person of people) {
    known.set(person, called[person] ?? '');
    for (const place of waiting.get(person) ?? []) fill(place, called[person] ?? '');
    waiting.delete(person);
  }
  const all = [...drawing];
  drawing.clear();
  for (const draw of all) draw();
}

/**
 * Has somebody be asked for, together with others.
 * @param {string} person @param {HTMLElement[]} places
 */
function want(person, places) {
  if (!waiting.has(person) && !late) late = window.setTimeout(askAll, 20);
  waiting.set(person, [...(waiting.get(person) ?? []), ...places]);
}

/** Asks for those who are shown and weren't asked for. */
async function askAll() {
  const people = [...waiting.keys()];
  late = 0;
  for (let i = 0; i < people.length; i += MOST) {
    const some = people.slice(i, i + MOST);
    const { told } = await ask(`/called${query({ person: some })}`).catch(() => ({ told: { called: {} } }));
    learn(some, told.called);
  }
}

/**
 * A person's name, and behind it what she is called, as soon as that is known.
 * @param {string} person
 */
export function who(person) {
  if (!desk.who.called) return name(person);
  const place = el('span.called'), there = known.get(person);
  if (there !== undefined) fill(place, there);
  else if (may('attributes')) want(person, [place]);
  return el('span', {}, name(person), place);
}

/**
 * The same as a text that is drawn, and drawn again once it is known.
 * @param {string} person @param {() => void} draw
 */
export function whoLine(person, draw) {
  const there = known.get(person);
  if (there === undefined && desk.who.called && may('attributes')) {
    drawing.add(draw);
    want(person, []);
  }
  return there ? `${person} ${there}` : person;
}

/**
 * The same as a text, as far as it is known.
 * @param {string} person
 */
export const whoText = (person) => (known.get(person) ? `${person} (${known.get(person)})` : person);

/** What people are called may be otherwise by now. */
export const forgetCalled = () => known.clear();
