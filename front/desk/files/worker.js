// One stream of events for all tabs that show themselves in the same way: a browser has six connections to a host, and
// each tab would keep one of its own. A tab says every minute that it is there.
import { hear } from './events.js';

const GONE = 200000;

/**
 * @typedef {{ports: Map<MessagePort, number>, ended: AbortController, from: string, state: any[]}} Stream
 * @type {Map<string, Stream>}
 */
const streams = new Map();

/** @param {Stream} stream @param {any} told */
const tell = (stream, told) => { for (const port of stream.ports.keys()) port.postMessage(told); };

/** @param {string} key @param {string} address @param {Record<string, string>} shows @param {string} from */
function begin(key, address, shows, from) {
  /** @type {Stream} */
  const stream = { ports: new Map(), ended: new AbortController(), from, state: [] };
  streams.set(key, stream);
  hear(address, shows, {
    event(told) {
      if (told.id) stream.from = told.id;
      tell(stream, { kind: 'event', told });
    },
    state(state, status) {
      stream.state = [state, status];
      tell(stream, { kind: 'state', state, status });
    },
  }, stream.ended.signal, from).finally(() => streams.delete(key));
  return stream;
}

/** @param {MessagePort} port */
function leave(port) {
  for (const [key, stream] of streams) {
    stream.ports.delete(port);
    if (stream.ports.size === 0) {
      stream.ended.abort();
      streams.delete(key);
    }
  }
}

/**
 * @param {MessagePort} port
 * @param {{kind: string, address: string, shows: Record<string, string>, from: string}} said
 */
function heard(port, said) {
  if (said.kind === 'leave') {
    leave(port);
    return;
  }
  const key = JSON.stringify([said.address, said.shows]);
  const stream = streams.get(key) ?? begin(key, said.address, said.shows, said.from);
  const isNew = !stream.ports.has(port);
  stream.ports.set(port, Date.now());
  if (!isNew) return;
  if (stream.from) port.postMessage({ kind: 'event', told: { event: 'from', id: stream.from, data: '' } });
  if (stream.state.length) port.postMessage({ kind: 'state', state: stream.state[0], status: stream.state[1] });
}

setInterval(() => {
  for (const stream of streams.values()) {
    for (const [port, last] of stream.ports) if (Date.now() - last > GONE) leave(port);
  }
}, 20000);

/** @type {any} */ (self).onconnect = (/** @type {MessageEvent} */ event) => {
  const [port] = event.ports;
  port.onmessage = (said) => heard(port, said.data);
};
