// Coming in: a token, typed once and kept for this tab alone.
import { keepToken, token, Problem } from './ask.js';
import { el } from './words.js';

/**
 * Why somebody isn't known, in words.
 * @param {Problem | null} problem
 */
function whyNot(problem) {
  if (!problem || !token()) return 'This service answers those whom it knows. Show who you are by a token.';
  if (problem.status === 429) return 'Too many attempts failed. Wait a minute, and try again.';
  return 'The token isn’t known, or its time is over.';
}

/**
 * Asks for a token. With a certificate, or behind a server that says who one is, nobody is asked.
 * @param {HTMLElement} place @param {Problem | null} problem @param {() => void} then
 */
export function askToken(place, problem, then) {
  const input = el('input', { type: 'password', name: 'token', autocomplete: 'off', required: true, size: 48,
    spellcheck: 'false' });
  const submit = (/** @type {Event} */ event) => {
    event.preventDefault();
    keepToken(input.value.trim());
    input.value = '';
    then();
  };
  place.replaceChildren(el('form.coming', { onsubmit: submit }, el('h1', {}, 'Who asks?'),
    el('p', { role: problem && token() ? 'alert' : 'status' }, whyNot(problem)),
    el('label', {}, el('span', {}, 'Token'), input),
    el('p.acts', {}, el('button.main', { type: 'submit' }, 'Come in')),
    el('p.quiet', {}, 'It is kept for this tab alone, and goes with it.')));
  input.focus();
}
