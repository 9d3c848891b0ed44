// Which view is open, and what the front tells meanwhile.
import { ask, hooks, keepKnown, keepToken, record, token, wasKnown, Problem } from './ask.js';
import { changed, desk, may, readLists, take } from './state.js';
import { address, el, field, number, moment } from './words.js';
import { close } from './panel.js';
import { header, listen } from './live.js';
import { askToken } from './coming.js';
import { opened } from './paper.js';
import { unknown } from './front.js';
import * as table from './table.js';

/**
 * The views by the words of their addresses; those without words in the line above are led to from others, or are of
 * one that stands there.
 * @type {Record<string, {load: () => Promise<any>, words: string, needs: string[], of?: string}>}
 */
const VIEWS = {
  table: { load: async () => table, words: 'Table', needs: ['names'] },
  person: { load: () => import('./person.js'), words: 'Person', needs: ['names', 'attributes'] },
  resource: { load: () => import('./resource.js'), words: 'Resource', needs: ['names', 'attributes'] },
  document: { load: () => import('./document.js'), words: 'Documents', needs: ['documents'] },
  rule: { load: () => import('./rule.js'), words: '', needs: ['by_rule'], of: 'document' },
  changes: { load: () => import('./changes.js'), words: 'What changed', needs: ['changes'] },
  findings: { load: () => import('./findings.js'), words: 'Findings', needs: ['names'] },
  try: { load: () => import('./try.js'), words: 'Try an edit', needs: ['attr.set', 'table'] },
  campaigns: { load: () => import('./campaigns.js'), words: 'Reviews', needs: ['campaign.show'] },
  campaign: { load: () => import('./campaign.js'), words: '', needs: ['campaign.show'], of: 'campaigns' },
  signing: { load: () => import('./signing.js'), words: '', needs: ['campaign.items'], of: 'campaigns' },
};

const place = field('view');
let turn = 0, isComing = false;

/**
 * The line above: which views there are for who asks, and which is open.
 * @param {string} open
 */
function drawViews(open) {
  field('views').replaceChildren(...Object.entries(VIEWS).filter(([, view]) => view.words && view.needs.every(may))
    .map(([each, { words }]) => el('a', { href: address(each),
      'aria-current': (each === open || each === VIEWS[open]?.of) && 'page' }, words)));
  field('who').replaceChildren(...(token() ? [desk.who.name, ' ', el('button.link', { type: 'button', onclick: leave },
    'Leave')]
    : [desk.who.name]));
}

function leave() {
  keepToken('');
  location.hash = '';
  location.reload();
}

export function drawLive() {
  const live = field('live'), count = changed.size ? ` · ${number(changed.size)} changed, unseen` : '';
  live.className = desk.live;
  live.textContent = desk.live === 'live' ? `Live · serial ${number(desk.serial)}${count}`
    : desk.live === 'away'
      ? `The service is away since ${moment(desk.since).slice(11)}. This is how it stood at serial ${number(
      desk.serial)}.`
      : desk.live === 'barred' && may('names')
        ? `As of serial ${number(desk.serial)}. You have no right to hear edits.` : '';
}

/**
 * Why a view can't be shown, in words.
 * @param {any} fault
 */
function faultWords(fault) {
  if (fault instanceof Problem && fault.status === 403) return `You may not see this: ${fault.message}.`;
  if (fault instanceof TypeError) return 'The service doesn’t answer.';
  return `This can’t be shown: ${fault.message}.`;
}

/** Opens the view that the address names. */
async function route() {
  if (isComing) return;
  turn += 1;
  const now = turn, [word, query] = location.hash.slice(1).split('?');
  const first = Object.entries(VIEWS).find(([, each]) => each.needs.every(may))?.[0] ?? 'table';
  const key = word in VIEWS ? word : first, view = VIEWS[key];
  drawViews(key);
  close(true);
  opened.view?.left?.();
  record.clear();
  const lacks = view.needs.find((each) => !may(each));
  if (lacks) {
    opened.view = null;
    place.replaceChildren(el('p.fault', { role: 'alert' },
      `You may not see this: ${desk.who.name} has no role with ${lacks}.`));
    return;
  }
  try {
    const module = /** @type {View} */ (await view.load());
    if (now !== turn) return;
    opened.view = module;
    place.className = key;
    document.title = `${view.words || module.title} – Review desk`;
    await module.show(place, new URLSearchParams(query ?? ''), () => now === turn);
  } catch (fault) {
    if (now === turn && !isComing) place.replaceChildren(el('p.fault', { role: 'alert' }, faultWords(fault)));
  }
}

/**
 * Nobody is known: a token is asked for.
 * @param {Problem | null} problem
 */
function comeIn(problem) {
  if (isComing) return;
  isComing = true;
  keepKnown(false);
  close(true);
  place.className = 'coming';
  field('views').replaceChildren();
  field('who').replaceChildren();
  field('live').textContent = '';
  document.title = 'Review desk';
  askToken(place, problem, begin);
}

/**
 * What happened.
 * @param {import('./events.js').Told} event
 */
async function hear({ event, id, data }) {
  const serial = Number(id), before = desk.serial;
  desk.serial = Math.max(desk.serial, serial);
  const view = opened.view;
  if (event === 'from' || event === 'anew') {
    if (serial > before || event === 'anew') await anew();
  } else if (event === 'notices') {
    const changes = /** @type {Change[]} */ (JSON.parse(data).notices);
    take(changes);
    if (changes.some((each) => each.before === null || each.after === null)) await anew();
    else view?.told?.(changes, serial);
  } else view?.told?.([], serial);
  drawLive();
}

/** Reads the lists anew, and the open view: one that can do so keeps what its reader had there. */
async function anew() {
  const before = desk.lists;
  if (may('names') && !await readLists().then(() => true, () => false)) return;
  const view = opened.view, isSame = before.actions.join() === desk.lists.actions.join();
  if (view?.renew && isSame) view.renew();
  else await route();
}

let silence = () => {};

/** Begins to hear. */
function begun() {
  silence();
  if (!may('notices')) {
    desk.live = 'barred';
    drawLive();
    return;
  }
  silence = listen({ event: (told) => { if (told.event !== 'message' || told.id) hear(told); }, state: header.state });
}

header.state = (state, status) => {
  const next = state === 'away' && status === 403 ? 'barred' : state;
  if (status === 401) comeIn(new Problem(401, {}));
  if (next !== desk.live) desk.since = new Date();
  desk.live = next;
  drawLive();
};

/** The questions that are told in parts, where the program has them and who asks may ask them. */
const PARTS = ['grid', 'totals', 'values', 'rules', 'grants', 'conflicts', 'alone', 'causes'];

/**
 * Takes who asks.
 * @param {import('./state.js').Desk['who']} who
 */
function knows(who) {
  desk.who = who;
  keepKnown(true);
  for (const question of PARTS) if (!may(question)) unknown.add(question);
}

/**
 * Finds out who asks, and opens the page. Whoever was known before asks for the lists at once; who isn't known is told
 * so once, since each attempt that fails counts.
 */
async function begin() {
  isComing = false;
  const read = () => readLists().then(() => null, (problem) => problem), early = wasKnown() ? read() : null;
  const unwelcome = await ask('/whoami').then(({ told }) => { knows(told); return null; }, (problem) => problem);
  if (unwelcome?.status === 401 || isComing) return;
  if (unwelcome?.status === 429) {
    comeIn(unwelcome);
    return;
  }
  const fault = unwelcome ?? (may('names') ? await (early ?? read()) : null); // a reviewer may have no right to lists
  if (isComing) return;
  if (fault) {
    drawViews('');
    place.replaceChildren(el('p.fault', { role: 'alert' }, faultWords(fault)));
    return;
  }
  begun();
  drawLive();
  await route();
}

hooks.unknown = comeIn;
window.addEventListener('hashchange', route);
window.addEventListener('keydown', (event) => {
  if (event.key === 'Escape') close();
  if (event.key === '/' && !/INPUT|SELECT|TEXTAREA/.test(/** @type {HTMLElement} */ (event.target).tagName)) {
    field('find')?.focus();
    event.preventDefault();
  }
});
begin();
