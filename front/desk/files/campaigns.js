// Reviews of access: all campaigns, and how far each is.
import { may } from './state.js';
import { el, link, moment, name, number, tableOf } from './words.js';
import { bar, printing } from './bar.js';
import { campaigns, farWords, ownNames, signedOf } from './reviewing.js';

export const title = 'Reviews', needs = ['campaign.show'];

/** @type {Campaign[]} */
let all = [];
let late = 0;

/**
 * How many cells who asks has to sign.
 * @param {Campaign} told
 */
const mine = ({ reviewers, ended }) => (ended ? 0 : ownNames().reduce((count, own) =>
  count + (reviewers[own]?.open ?? 0) + (reviewers[own]?.fell ?? 0), 0));

/**
 * Where who asks signs: of all that may be seen what is his, if there is something.
 * @param {Campaign} told
 */
const signingOf = ({ campaign, reviewers }) => ({ campaign: campaign.name, reviewer: may('campaign.all')
  ? ownNames().find((own) => reviewers[own]) ?? '' : '' });

/** @param {Campaign} told */
const endWords = ({ campaign, ended }) => (ended ? `ended ${moment(ended.time)}` : campaign.ends ?? 'when it is ended');

const HEADS = ['Campaign', 'Opened', 'Until', '#Cells', '#Signed', '#Fallen', '#To do', '#Yours', ''];

/** @param {Campaign} told */
const row = (told) => [link('campaign', { campaign: told.campaign.name }, name(told.campaign.name)),
  [moment(told.time), el('div.quiet', {}, 'by ', name(told.by))], endWords(told), number(told.items),
  number(signedOf(told)), number(told.states.fell ?? 0), number(told.states.open ?? 0), number(mine(told)),
  may('campaign.items') ? link('signing', signingOf(told), mine(told) ? 'Sign' : 'Its list') : ''];

/** @param {HTMLElement} place @param {URLSearchParams} _ @param {() => boolean} isOpen */
export async function show(place, _, isOpen) {
  all = (await campaigns()).reverse();
  if (!isOpen()) return;
  const due = all.reduce((count, told) => count + mine(told), 0);
  place.replaceChildren(bar(printing()), el('div.page', {}, el('h1', {}, 'Reviews of access'),
    el('p.lead', { role: 'status' }, all.length === 0 ? 'No campaign was opened yet.' : due
      ? `${number(due)} cells wait for you.` : 'Nothing waits for you.'),
    el('p.quiet', {}, 'A sign-off stands as long as its answer does: the edit that changes the answer ends it.'),
    all.length ? tableOf(HEADS, all.map(row), 'Campaigns') : null));
}

/** What changed may have ended sign-offs: the page is read anew. */
export function told() {
  clearTimeout(late);
  late = window.setTimeout(() => window.dispatchEvent(new HashChangeEvent('hashchange')), 300);
}

export const renew = told;
export const left = () => clearTimeout(late);

/** @returns {Sheet} */
export const sheet = () => ({
  title: 'Reviews of access', filter: [], heads: ['Campaign', 'Opened', 'By', 'Until', '#Cells', 'How far'],
  rows: all.map((told) => [told.campaign.name, moment(told.time), told.by, endWords(told), told.items, farWords(told)]),
});
