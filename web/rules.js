/** The rules, their criteria and what their reasons mean: silvervole/data/rules.json. */

import { noteCaller } from './desk.js';

export const OUTCOMES = ['failed', 'cantTell', 'passed'];
export const HEADINGS = { failed: 'Failed', cantTell: 'For a person to judge', passed: 'Passed' };

/** The table of rules; with it the proxy says who signed in. */
export async function loadRules() {
  const reply = await fetch('rules.json');
  if (!reply.ok) throw new Error(`rules.json: ${reply.status}`);
  noteCaller(reply);
  return new Rules(await reply.json());
}

class Rules {
  constructor(data) {
    this.data = data;
    this.byId = new Map(data.rules.map((rule) => [rule.id, rule]));
  }

  get criteria() { return this.data.criteria; }

  /** The rule of an id; one that isn't known has its id alone. */
  rule(id) { return this.byId.get(id) ?? { id, name: `Rule ${id}`, criteria: [], reasons: [] }; }

  /** The outcomes that count by themselves, and those that count through the composite that merges them on their node. */
  counting(outcomes) {
    const composites = new Set(outcomes.flatMap((one) => (this.rule(one.rule).inputs ?? []).map((input) => `${input}-${one.node}`)));
    const isMerged = (one) => composites.has(`${one.rule}-${one.node}`);
    return { counting: outcomes.filter((one) => !isMerged(one)), merged: outcomes.filter(isMerged) };
  }

  link(id) { return this.data.rule_page.replace('{id}', id); }

  criterionLink(criterion) { return this.data.criterion_page.replace('{anchor}', criterion.anchor); }

  /** What is said of a reason with its outcome; undefined where nothing is. */
  advice(outcome) {
    return this.rule(outcome.rule).reasons.find((one) => one.reason === outcome.reason && one.outcome === outcome.automatic);
  }
}
