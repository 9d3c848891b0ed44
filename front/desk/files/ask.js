// Asking the front: who asks is said by a token that is kept for this tab alone, and what was asked can be printed.

/** Where the front's paths begin: the page may stand below a path of a server before it. */
export const base = new URL('../', import.meta.url);

const KEY = 'review-desk-token';

/** A problem that the front tells, in its words. */
export class Problem extends Error {
  /** @param {number} status @param {any} told */
  constructor(status, told) {
    super(told?.detail || told?.title || `the service answered ${status}`);
    this.status = status;
    this.title = String(told?.title ?? '');
    this.refused = Number(told?.refused ?? 0);
    this.sub = Number(told?.sub ?? 0);
  }

  /** Whether this front, or its program, doesn't know what was asked. */
  get isUnknown() { return this.status === 404 && (this.refused === 0 || this.refused === 4); }
}

export const token = () => sessionStorage.getItem(KEY) ?? '';

const KNOWN = 'review-desk-known';

/** Whether this tab was answered before as it asks now: then it needn't wait to be known before it asks more. */
export const wasKnown = () => sessionStorage.getItem(KNOWN) === '1';

/** @param {boolean} isKnown */
export const keepKnown = (isKnown) => sessionStorage.setItem(KNOWN, isKnown ? '1' : '');

/** @param {string} given */
export function keepToken(given) {
  keepKnown(false);
  if (given) sessionStorage.setItem(KEY, given);
  else sessionStorage.removeItem(KEY);
}

/**
 * The field by which one who has a token shows it.
 * @returns {Record<string, string>}
 */
export const shows = () => (token() ? { Authorization: `Bearer ${token()}` } : {});

/**
 * What was asked since a view was opened, each path once with its last answer.
 * @type {Map<string, Asked>}
 */
export const record = new Map();

/**
 * Who wants to know that nobody is known any more.
 * @type {{unknown: (problem: Problem) => void}}
 */
export const hooks = { unknown() {} };

/**
 * Asks a path. Serial is how many edits the answer knows of.
 * @param {string} path @param {RequestInit} [options] @returns {Promise<{told: any, serial: number}>}
 */
export async function ask(path, options = {}) {
  const shownToken = token();
  const headers = { Accept: 'application/json', ...shows(), .../** @type {any} */ (options.headers ?? {}) };
  const answer = await fetch(new URL(path.replace(/^\//, ''), base), { ...options, headers, cache: 'no-store' });
  if (!answer.ok) {
    const problem = new Problem(answer.status, await answer.json().catch(() => ({})));
    if (answer.status === 401 && shownToken === token()) hooks.unknown(problem); // else somebody else came in since
    throw problem;
  }
  const serial = answer.headers.get('Review-Serial') ?? '';
  if (!options.method) record.set(path, { path, serial, digest: answer.headers.get('Digest') ?? '' });
  return { told: await answer.json(), serial: Number(serial) };
}

/**
 * Fetches a file: what it is, as it came.
 * @param {string} path @returns {Promise<Blob>}
 */
export async function fetchFile(path) {
  const answer = await fetch(new URL(path.replace(/^\//, ''), base), { headers: shows(), cache: 'no-store' });
  if (!answer.ok) throw new Problem(answer.status, await answer.json().catch(() => ({})));
  return answer.blob();
}

/**
 * Sends a command's body, or lines.
 * @param {string} path @param {string} body @param {Record<string, string>} [headers]
 */
export const send = (path, body, headers = {}) => ask(path, { method: 'POST', body, headers });

/**
 * A query of what is given.
 * @param {Record<string, any>} given
 */
export function query(given) {
  const all = new URLSearchParams();
  for (const [key, value] of Object.entries(given)) {
    if (Array.isArray(value)) for (const each of value) all.append(key, each);
    else if (value !== undefined && value !== null && value !== '') all.append(key, String(value));
  }
  const words = all.toString();
  return words ? `?${words}` : '';
}
