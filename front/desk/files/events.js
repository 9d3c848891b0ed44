// Server-sent events read by `fetch`, which can show a token. A stream that breaks is asked for again, from the last
// event
// on that came; `EventSource` would give up for ever at the first status that isn't 200, as of a proxy while the front
// starts.

/** After how long without a sign of the front it is away: it says something every fifteen seconds. */
const SILENT = 45000;
const AGAIN = 1000;

/** @typedef {{event: string, id: string, data: string}} Told */
/** @typedef {{event: (told: Told) => void, state: (state: 'live' | 'away', status: number) => void}} Hears */

/**
 * Reads events out of the text of a stream.
 * @param {(told: Told) => void} tell
 */
function reader(tell) {
  let rest = '', event = '', id = '';
  /** @type {string[]} */
  let data = [];
  const line = (/** @type {string} */ text) => {
    if (text === '') {
      if (id !== '' || data.length) tell({ event: event || 'message', id, data: data.join('\n') });
      event = '';
      id = '';
      data = [];
    } else if (text.startsWith('event: ')) event = text.slice(7);
    else if (text.startsWith('id: ')) id = text.slice(4);
    else if (text.startsWith('data: ')) data.push(text.slice(6));
  };
  return (/** @type {string} */ more) => {
    const lines = (rest + more).split('\n');
    rest = lines.pop() ?? '';
    lines.forEach(line);
  };
}

/**
 * One stream to its end.
 * @param {ReadableStream<Uint8Array>} body @param {(told: Told) => void} tell @param {() => void} alive
 */
async function readAll(body, tell, alive) {
  const from = body.getReader(), decoder = new TextDecoder(), take = reader(tell);
  for (;;) {
    const { done, value } = await from.read();
    if (done) return;
    alive();
    take(decoder.decode(value, { stream: true }));
  }
}

/**
 * Hears events until it is ended, or the front says that one may not.
 * @param {string} address @param {Record<string, string>} shows @param {Hears} hears @param {AbortSignal} ended
 * @param {string} from the last event that is known already, if there is one
 */
export async function hear(address, shows, hears, ended, from) {
  let last = from;
  while (!ended.aborted) {
    const once = new AbortController();
    let timer = setTimeout(() => once.abort(), SILENT), status = 0;
    const alive = () => {
      clearTimeout(timer);
      timer = setTimeout(() => once.abort(), SILENT);
    };
    const end = () => once.abort();
    ended.addEventListener('abort', end);
    try {
      const headers = last ? { ...shows, 'Last-Event-ID': last } : shows;
      const answer = await fetch(address, { headers, cache: 'no-store', signal: once.signal });
      status = answer.status;
      if (status === 200 && answer.body) {
        hears.state('live', 200);
        await readAll(answer.body, (told) => {
          if (told.id) last = told.id;
          hears.state('live', 200);
          hears.event(told);
        }, alive);
      }
    } catch { /* it is asked for again */ }
    clearTimeout(timer);
    ended.removeEventListener('abort', end);
    if (ended.aborted) return;
    hears.state('away', status);
    if (status === 401 || status === 403) return;
    await new Promise((resolve) => setTimeout(resolve, AGAIN));
  }
}
