/** Sends answers one after another, with progress. */

import * as desk from './desk.js';
import { el } from './dom.js';

/**
 * Sends an answer for each finding until one is refused or somebody says to stop: the findings that the desk took, and the refusal.
 * @param {{ site: string, page: string }} place
 * @param {Array<{ rule: string, node: number, digest: string }>} findings
 * @param {{ verdict: string, note: string }} answer
 * @param {(taken: number) => void} tell is told how many were taken
 * @param {() => boolean} isStopped says whether to stop
 */
export async function sendEach({ site, page }, findings, { verdict, note }, tell, isStopped) {
  const taken = [];
  for (const { rule, node, digest } of findings) {
    if (isStopped()) break;
    try {
      await desk.judge(site, page, { rule, node, verdict, digest, note });
    } catch (refusal) {
      return { taken, refusal };
    }
    taken.push(node);
    tell(taken.length);
  }
  return { taken, refusal: null };
}

/** How far the answers have come, with a button that stops them. */
export function progressOf(all, stop) {
  const bar = el('progress', { 'aria-label': 'How many answers the desk has', value: '0', max: String(all) });
  const words = el('p', { class: 'quiet' }, takenWords(0, all));
  const part = el('div', { class: 'sending' }, bar, words, el('button', { type: 'button', class: 'second', onclick: stop }, 'Stop'));
  return { part, tell: (taken) => { bar.value = taken; words.textContent = takenWords(taken, all); } };
}

/** How many of all answers the desk took. */
export const takenWords = (taken, all) => `The desk has ${taken} of ${all} answers.`;
