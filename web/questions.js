/** Findings of one rule with the same evidence are one question, as long as they stand alike. */

import { grouped } from './dom.js';
import { isForPeople, isOpen } from './targets.js';

const keyOf = (outcome) => [outcome.rule, outcome.digest, outcome.outcome, outcome.by].join(' ');

/** The findings of an outcome's question: the open ones, or those that the same person judged alike. */
export const alike = (outcomes, outcome) => outcomes.filter((one) => isForPeople(one) && keyOf(one) === keyOf(outcome));

/** How many findings the question of an outcome has. */
export function sizes(outcomes) {
  const byKey = grouped(outcomes.filter(isForPeople), keyOf);
  return (outcome) => byKey.get(keyOf(outcome)).length;
}

/** The open questions of a page, each as the list of its findings. */
export const openQuestions = (outcomes) => [...grouped(outcomes.filter(isOpen), keyOf).values()];

/** The first finding of the next open question behind that of an outcome, or of the first one; undefined where there is no other. */
export function nextQuestion(outcomes, outcome) {
  const others = openQuestions(outcomes).filter(([first]) => keyOf(first) !== keyOf(outcome)).map(([first]) => first);
  const own = outcomes.findIndex((one) => one.rule === outcome.rule && one.digest === outcome.digest);
  return others.find((first) => outcomes.indexOf(first) > own) ?? others[0];
}

/** What comes after an answer on an outcome: what is still open of its question, or the next one. */
export function nextOpen(outcomes, outcome) {
  const same = outcomes.filter((one) => isOpen(one) && one.rule === outcome.rule && one.digest === outcome.digest);
  const place = outcomes.findIndex((one) => one.rule === outcome.rule && one.node === outcome.node);
  return same.find((one) => outcomes.indexOf(one) > place) ?? same[0] ?? nextQuestion(outcomes, outcome);
}

