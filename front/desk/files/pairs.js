// Pairs of actions that nobody is to have both of, kept by the browser.

const KEY = 'review-desk-pairs';

/** @typedef {{left: string, right: string, same: string}} Pair */

/** @returns {Pair[]} */
export function pairs() {
  try {
    const kept = JSON.parse(localStorage.getItem(KEY) ?? '[]');
    return Array.isArray(kept) ? kept.filter((each) => typeof each?.left === 'string'
      && typeof each?.right === 'string') : [];
  } catch { return []; }
}

/** @param {Pair} one @param {Pair} other */
const isSame = (one, other) => one.left === other.left && one.right === other.right && one.same === other.same;

/** @param {Pair} pair */
export const keepPair = (pair) => localStorage.setItem(KEY,
  JSON.stringify([...pairs().filter((each) => !isSame(each, pair)), pair]));

/** @param {Pair} pair */
export const forgetPair = (pair) => localStorage.setItem(KEY,
  JSON.stringify(pairs().filter((each) => !isSame(each, pair))));
