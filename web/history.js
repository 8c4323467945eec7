/** What people said of a finding, one after another, and whether it counts. */

import { counted, el } from './dom.js';

const WORDS = { passed: 'Passed', failed: 'Failed', cantTell: 'Can\'t tell' };

/** What people said of a rule on a node, in the order in which they said it. */
export const saidOf = (verdicts, { rule, node }) => verdicts.filter((one) => one.rule === rule && one.node === Number(node));

/** What counts of that; undefined where nothing does. */
export const countingOf = (verdicts, place) => saidOf(verdicts, place).find((one) => one.counts);

/** Why a judgement counts for a finding, or doesn't; a finding that isn't there any more is undefined. */
function whyOf(judgement, outcome) {
  if (judgement.counts) return 'It counts.';
  if (!outcome) return 'It doesn\'t count: the finding is no more.';
  if (outcome.automatic !== 'cantTell') return 'It doesn\'t count: the rule decides this by itself now.';
  if (judgement.digest !== outcome.digest) return 'It doesn\'t count: the evidence has changed since.';
  return 'It doesn\'t count: a later judgement took its place.';
}

const entry = (judgement, outcome) => el('li', {},
  el('p', {}, el('span', { class: `result ${judgement.verdict}` }, WORDS[judgement.verdict]), ', by ', el('bdi', {}, judgement.by), '. ', whyOf(judgement, outcome)),
  judgement.note ? el('pre', {}, judgement.note) : null);

/** The list of what people said; null where nobody did. */
export function historyList(verdicts, place, outcome) {
  const said = saidOf(verdicts, place);
  return said.length ? el('ol', { class: 'history' }, said.map((one) => entry(one, outcome))) : null;
}

/** The same beneath a heading. */
export function historyPart(verdicts, place, outcome) {
  const list = historyList(verdicts, place, outcome);
  return list && el('section', { 'aria-labelledby': 'history' }, el('h2', { id: 'history' }, 'What people said of it'), list);
}

/** The same, which is opened on demand. */
export function historyDetails(verdicts, outcome, about) {
  const list = historyList(verdicts, outcome, outcome);
  return list && el('details', {}, el('summary', {}, `${counted(list.childElementCount, 'judgement', 'judgements')}: ${about}`), list);
}
