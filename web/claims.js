/** Claims: what the entries of EARL in the desk's form say, and what becomes of each on a page. docs/use/judgements.md has the form. */

import { isMerged, placeOf } from './targets.js';

export const MOST_ENTRIES = 10_000;
const MOST_NOTE = 2000;
const LONG = 'http://www.w3.org/ns/earl#';
const TEST = /^urn:act-rule:(.+)$/s;
const NODE = /^node ([1-9][0-9]{0,9})$/;
const INFO = /^([0-9a-f]{64})(?: (.*))?$/s;
const MODES = ['earl:manual', 'earl:semiAuto'];
const VERDICTS = { 'earl:passed': 'passed', 'earl:failed': 'failed', 'earl:cantTell': 'cantTell' };

/** A member of an object; undefined of anything else. */
const member = (value, name) => (value !== null && typeof value === 'object' && Object.hasOwn(value, name) ? value[name] : undefined);
const textOf = (value) => (typeof value === 'string' ? value : '');

/** What a reference names, with EARL's prefix in short; empty where it is none. */
function named(value) {
  const name = textOf(typeof value === 'string' ? value : member(value, '@id'));
  return name.startsWith(LONG) ? `earl:${name.slice(LONG.length)}` : name;
}

const bytesOf = (text) => new TextEncoder().encode(text).length;

/** The entries of a file's text; null where it isn't JSON of the form. */
export function entriesIn(text) {
  let data;
  try { data = JSON.parse(text); } catch { return null; }
  const entries = member(data, '@graph');
  return Array.isArray(entries) ? entries : null;
}

/** What an entry claims, or why it claims nothing. */
export function claimOf(entry) {
  const result = member(entry, 'earl:result');
  const [, rule] = TEST.exec(named(member(entry, 'earl:test'))) ?? [];
  const [, node] = NODE.exec(textOf(member(result, 'earl:pointer'))) ?? [];
  const [, digest, note = ''] = INFO.exec(textOf(member(result, 'earl:info'))) ?? [];
  const verdict = VERDICTS[named(member(result, 'earl:outcome'))];
  const claim = { subject: named(member(entry, 'earl:subject')), rule, node: Number(node), verdict, digest, note };
  const faults = [
    [claim.subject === '', 'it names no page'],
    [rule === undefined, 'it names no ACT rule by its id'],
    [!MODES.includes(named(member(entry, 'earl:mode'))), 'it was not made by a person'],
    [verdict === undefined, 'its outcome is neither passed, failed nor cantTell'],
    [node === undefined, 'it points to no node by its number'],
    [digest === undefined, 'it has no digest of the evidence that was seen'],
    [bytesOf(note) > MOST_NOTE, 'its note is too long'],
  ];
  const why = faults.find(([holds]) => holds)?.[1] ?? '';
  return { claim, why };
}

/** Why a claim doesn't hold of a page; empty where it does. */
function refusal(claim, page, outcome) {
  if (claim.subject !== page.address) return 'it is about another page';
  if (!outcome) return 'the rule has no outcome there';
  if (isMerged(outcome)) return 'it follows from other rules';
  if (outcome.automatic !== 'cantTell') return 'the rule decides it by itself';
  return outcome.digest === claim.digest ? '' : 'what the rule looks at is something else by now';
}

/**
 * What becomes of each entry where this person sends it: `added`, `known` or `skipped`, with the claim, its outcome and why. Known is what
 * counts now or stands in the file before; the desk also knows what stands further up in the page's list.
 */
export function fatesOf(entries, page, caller) {
  const rows = new Map(page.outcomes.map((outcome) => [placeOf(outcome), outcome]));
  const before = new Set();
  return entries.map((entry) => {
    const { claim, why: fault } = claimOf(entry);
    const outcome = fault ? undefined : rows.get(placeOf(claim));
    const why = fault || refusal(claim, page, outcome);
    if (why) return { fate: 'skipped', entry, claim, outcome, why };
    const key = JSON.stringify([claim.rule, claim.node, claim.verdict, claim.note]);
    const isKnown = before.has(key) || (outcome.by === caller && outcome.outcome === claim.verdict);
    before.add(key);
    return { fate: isKnown ? 'known' : 'added', entry, claim, outcome, why: '' };
  });
}
