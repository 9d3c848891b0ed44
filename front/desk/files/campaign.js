// A campaign: how far it is, who has something to sign, what fell and by which edit, what is to be revoked, evidence.
import { fetchFile } from './ask.js';
import { may } from './state.js';
import { el, link, listed, moment, name, number, plural, say, tableOf } from './words.js';
import { bar, printing } from './bar.js';
import { saveFile } from './paper.js';
import { listen } from './live.js';
import { act, campaign as read, doneBy, editLink, editOf, farWords, groupsOf, signedOf, tasksOf } from './reviewing.js';
import { tasksTable } from './tasks.js';
import { rowOf, sheetOf } from './signing.js';

export const title = 'Campaign', needs = ['campaign.show'];

/** @type {Campaign} */
let shown;
let late = 0;
let stop = () => {};

/**
 * A part of the scope in words.
 * @param {string} words @param {ScopePart | undefined} part
 */
function partWords(words, part) {
  const names = part?.names ?? [], where = part?.where ?? [];
  const each = [...(names.length ? [listed(names)] : []), ...where.map(({ attribute, values }) =>
    `those whose ${attribute} is ${values.join(' or ')}`)];
  return el('tr', {}, el('th', { scope: 'row' }, words), el('td', {}, each.length ? name(each.join(', and ')) : 'all'));
}

/**
 * Who reviews what, in words.
 * @param {Definition['reviewers'][0]} each
 */
function reviewerWords(each) {
  if (each.person) return `whom ${each.person} of the person names`;
  if (each.resource) return `whom ${each.resource} of the resource names`;
  const of = [...(each.people ?? []), ...(each.actions ?? []), ...(each.resources ?? [])];
  return `${each.name}${of.length ? ` for ${listed(of)}` : ''}`;
}

/** @param {Campaign} told */
function definition({ campaign, time, by, serial, ended }) {
  const { scope } = campaign, row = (/** @type {string} */ words, /** @type {any} */ value) => (value
    ? el('tr', {}, el('th', { scope: 'row' }, words), el('td', {}, name(value))) : null);
  return el('table.facts.wide', { 'aria-label': 'What it is' }, row('Opened', doneBy({ by, time, serial })),
    row(ended ? 'Ended' : 'Until', ended ? doneBy(ended) : campaign.ends ?? 'somebody ends it'),
    partWords('People', scope.people), partWords('Actions', scope.actions), partWords('Resources', scope.resources),
    row('Decisions', listed(scope.decisions ?? ['Permit'])),
    row('Who reviews', campaign.reviewers.map(reviewerWords).join('; else ')),
    row('A sign-off ends with', campaign.on === 'decision' ? 'another decision'
      : 'another decision, other reasons or obligations'),
    row('Takes over from', campaign.after), row('At most so old', campaign.oldest),
    row('Reminders', (campaign.remind ?? []).join(', ')),
    row('For herself', campaign.self ? 'somebody may sign for herself' : ''));
}

/** @param {Campaign} told */
function takenWords({ campaign, taken, asked }) {
  if (!campaign.after) return null;
  const why = Object.entries(asked ?? {}).map(([key, count]) => `${number(count)} ${key}`);
  return el('p', {}, `${plural(taken ?? 0, 'sign-off')} of `, name(campaign.after), ' were taken over',
    why.length ? `; asked again are ${listed(why)}.` : '.');
}

/** @param {HTMLElement} table */
const narrow = (table) => {
  table.classList.add('narrow');
  return table;
};

/** @param {Campaign} told */
function reviewerTable({ reviewers, campaign }) {
  const all = Object.entries(reviewers).sort(([, a], [, b]) => b.open + b.fell - a.open - a.fell);
  if (!all.length) return el('p.quiet', {}, 'Nobody has anything to sign.');
  const to = (/** @type {string} */ who) => (may('campaign.all')
    ? link('signing', { campaign: campaign.name, reviewer: who, only: 'open fell' }, name(who)) : name(who));
  return narrow(tableOf(['Reviewer', '#To do', '#Fallen'], all.map(([who, count]) =>
    [to(who), number(count.open), number(count.fell)]), 'Who has something to sign'));
}

/** @param {Campaign} told */
function fellTable({ fell, more }) {
  if (!fell.length) return el('p.quiet', {}, 'No edit ended a sign-off.');
  return [tableOf(['#Serial', 'Edit', 'By', 'When', '#Sign-offs ended'], fell.map((edit) => [number(edit.serial),
    editLink(edit, name(editOf(edit))), name(edit.by), moment(edit.time), number(edit.items)]), 'What fell'),
  more ? el('p.quiet', {}, `The last ${plural(fell.length, 'edit')} are here.`) : null];
}

/** @param {'jsonl' | 'csv'} form */
async function takeEvidence(form) {
  const { campaign } = shown;
  try {
    saveFile(await fetchFile(`/campaigns/${campaign.name}/evidence?form=${form}`), `${campaign.name}.${form}`);
    say('The evidence is taken.');
  } catch (fault) { tell(`The evidence can’t be taken: ${/** @type {Error} */ (fault).message}.`); }
}

/** @param {string} words */
const tell = (words) => document.querySelector('#view .page')?.prepend(el('p.fault', { role: 'alert' }, words));

function evidence() {
  if (!may('campaign.evidence') || !may('changes')) return null;
  return [el('h2', {}, 'Evidence'),
    el('p', {}, 'What is in the scope, who signed what at which serial over which answer, what fell, and the records ',
      'of the journal by which all of it can be checked without this service: ',
      el('code', {}, 'review-front verify --evidence FILE --key KEY'), '.'),
    el('p.acts', {}, el('button', { type: 'button', onclick: () => takeEvidence('jsonl') }, 'Evidence, JSON lines'),
      el('button', { type: 'button', onclick: () => takeEvidence('csv') }, 'A table, CSV'))];
}

/** A second press ends it. */
function ending() {
  if (!may('campaign.close') || shown.ended) return null;
  let isSure = false;
  const button = el('button', { type: 'button', onclick: async () => {
    if (!isSure) {
      isSure = true;
      button.textContent = 'End it now, for good';
      return;
    }
    button.disabled = true;
    await act(shown.campaign.name, 'close', {}).then(later, (fault) => tell(`It can’t be ended: ${fault.message}.`));
  } }, 'End this campaign');
  return [el('h2', {}, 'The end'),
    el('p', {}, 'Nobody can sign once it has ended; what was signed goes on to stand or fall.'),
    el('p.acts', {}, button)];
}

/** @param {HTMLElement} place @param {URLSearchParams} query @param {() => boolean} isOpen */
export async function show(place, query, isOpen) {
  const wanted = query.get('campaign') ?? '';
  const [far, tasks] = await Promise.all([read(wanted), may('campaign.tasks') ? tasksOf(wanted) : null]);
  if (!isOpen()) return;
  shown = far;
  const rest = shown.items - (shown.states.gone ?? 0);
  place.replaceChildren(bar(el('span.there', {}, link('campaigns', {}, 'All campaigns'), may('campaign.items')
    ? [' · ', link('signing', { campaign: wanted }, 'What there is to sign')] : null), printing()),
  el('div.page', {}, el('h1', {}, name(wanted)), el('p.lead', { role: 'status' }, farWords(shown)),
    el('progress', { max: Math.max(1, rest), value: signedOf(shown), 'aria-label': 'Signed' }), takenWords(shown),
    el('h2', {}, 'Who has something to sign'), reviewerTable(shown),
    tasks ? [el('h2', {}, 'What is to be revoked, and still there'), tasksTable(tasks)] : null,
    el('h2', {}, 'What fell, and by which edit'), fellTable(shown), evidence(),
    el('h2', {}, 'What it is'), definition(shown), ending()));
  stop();
  stop = listen({ event({ event, id }) {
    if (isOpen() && (event !== 'from' || Number(id) > shown.up_to)) later();
  }, state() {} }, `campaigns/${wanted}/events`, shown.up_to);
}

/** Something happened: a moment later the page is read anew. */
function later() {
  clearTimeout(late);
  late = window.setTimeout(() => window.dispatchEvent(new HashChangeEvent('hashchange')), 500);
}

export const told = later;
export const renew = later;

export function left() {
  stop();
  stop = () => {};
  clearTimeout(late);
}

/** The evidence on paper. @returns {Promise<Sheet>} */
export async function sheet() {
  const { groups, more } = await groupsOf(shown.campaign.name, {});
  const made = sheetOf(`Evidence of ${shown.campaign.name}`, [farWords(shown)], groups.map(rowOf));
  return more ? { ...made, notes: [`The first ${number(groups.length)} rows are here.`] } : made;
}
