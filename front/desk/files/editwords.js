// An edit in words.
import { tail } from './words.js';

const VERBS = /** @type {Record<string, string>} */ ({
  add: 'added', drop: 'dropped', replace: 'replaced', withdraw: 'withdrawn',
});

/**
 * The id of what a line names.
 * @param {any} line
 */
function idOf(line) {
  const document = Object.values(line.document ?? {})[0];
  return line.name ?? line.id ?? document?.PolicyId ?? document?.PolicySetId ?? '';
}

/**
 * A reference in words.
 * @param {any} reference
 */
const referenceWords = (reference) => (reference === null ? 'nothing'
  : Object.values(reference)[0]?.Id ?? JSON.stringify(reference));

/**
 * What an edit did, and a detail of it.
 * @param {any} line @param {string} kind @returns {[string, string]}
 */
export function editWords(line, kind) {
  if (line === null) return [kind, 'its line isn’t kept any more'];
  if (line.do === 'attr.set') {
    const values = line.values.length ? line.values.map((/** @type {unknown} */ value) => String(value)).join(', ')
      : 'no value';
    return [`${line.entity}: ${tail(line.attribute)} is ${values}`, line.issuer ? `said by ${line.issuer}` : ''];
  }
  if (line.do === 'day.set') return [`The day is ${line.day ?? 'not known'}`, ''];
  if (line.do === 'moment.set') return [`The moment is ${line.moment ?? 'not known'}`, ''];
  if (line.do === 'root.set') return [`The root is ${referenceWords(line.reference)}`, ''];
  const [what, verb] = String(line.do).split('.'), document = Object.values(line.document ?? {})[0];
  const version = document?.Version ?? line.version;
  return [`${what[0].toUpperCase()}${what.slice(1)} ${VERBS[verb] ?? verb}: ${idOf(line)}`, version
    ? `version ${version}` : ''];
}

/**
 * Where what an edit is about has a page, or nothing.
 * @param {any} line @returns {[string, Record<string, string>] | null}
 */
export function aboutOf(line) {
  if (line === null) return null;
  if (line.do === 'attr.set' && /access-?subject$/i.test(line.category)) return ['person', { person: line.entity }];
  if (line.do === 'attr.set' && /resource$/i.test(line.category)) return ['resource', { resource: line.entity }];
  if (String(line.do).startsWith('policy.')) return ['document', { id: idOf(line) }];
  return null;
}
