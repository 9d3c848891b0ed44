// What edits change, as it happens: one stream for all tabs, or where the browser has no shared workers one for this.
import { base, shows } from './ask.js';
import { hear } from './events.js';

/** @typedef {import('./events.js').Told} Told */
/** @typedef {import('./events.js').Hears} Hears */

const STILL = 60000;

/**
 * Who shows whether the page hears what happens.
 * @type {{state: (state: string, status: number) => void}}
 */
export const header = { state() {} };

/** The address of the worker, as Trusted Types have it. */
function workerAddress() {
  const address = new URL('./worker.js', import.meta.url).href;
  const types = /** @type {any} */ (window).trustedTypes;
  if (!types) return address;
  return types.createPolicy('desk', { createScriptURL: (/** @type {string} */ given) => {
    if (given !== address) throw new TypeError('the desk names no other script');
    return given;
  } }).createScriptURL(address);
}

/** @type {any} */
let made = null;

/**
 * Hears by the shared worker.
 * @param {string} address @param {number} from @param {Hears} hears @param {AbortSignal} ended
 */
function share(address, from, hears, ended) {
  made ??= workerAddress();
  const worker = new SharedWorker(made, { type: 'module', name: 'review-desk' }), { port } = worker;
  const said = { kind: 'hear', address, shows: shows(), from: from ? String(from) : '' };
  port.onmessage = ({ data }) => {
    if (data.kind === 'event') hears.event(data.told);
    else hears.state(data.state, data.status);
  };
  const still = setInterval(() => port.postMessage(said), STILL);
  const leave = () => {
    clearInterval(still);
    port.postMessage({ kind: 'leave' });
    port.close();
  };
  // A tab that the browser keeps to come back to says nothing, and begins anew.
  window.addEventListener('pagehide', leave, { signal: ended });
  window.addEventListener('pageshow', (event) => { if (event.persisted) location.reload(); }, { signal: ended });
  ended.addEventListener('abort', leave);
  port.start();
  port.postMessage(said);
}

/**
 * Hears what happens, until it is ended: what edits change, or what another path tells behind a serial.
 * @param {Hears} hears @param {string} [path] @param {number} [from] @returns {() => void} ends it
 */
export function listen(hears, path = 'notices', from = 0) {
  const ended = new AbortController(), address = new URL(path, base).href;
  if ('SharedWorker' in window) share(address, from, hears, ended.signal);
  else hear(address, shows(), hears, ended.signal, from ? String(from) : '');
  return () => ended.abort();
}
