/** A page's findings by outcome, criterion and rule. */

import { choices, filter } from './choosing.js';
import * as desk from './desk.js';
import { counted, el, grouped } from './dom.js';
import { historyDetails } from './history.js';
import * as kept from './kept.js';
import { loadPage } from './pages.js';
import { pager, partOf } from './paging.js';
import { openQuestions, sizes } from './questions.js';
import { HEADINGS, OUTCOMES } from './rules.js';
import { adviceOf, facts, isForPeople, isMerged, placeOf, ruleMeta } from './targets.js';

/** The choices among the outcomes, criteria and rules of a page. */
function filters(app, outcomes) {
  const ids = [...new Set(outcomes.map((one) => one.rule))];
  const used = new Set(ids.flatMap((id) => app.rules.rule(id).criteria));
  return choices(app,
    filter(app, 'outcome', 'Outcome', 'All outcomes', OUTCOMES.map((one) => [one, HEADINGS[one]])),
    filter(app, 'criterion', 'Criterion', 'All criteria', app.rules.criteria.filter((one) => used.has(one.number)).map((one) => [one.number, `${one.number} ${one.name}`])),
    filter(app, 'rule', 'Rule', 'All rules', ids.map((id) => [id, app.rules.rule(id).name])));
}

/** Whether the filters let an outcome through. */
const isShown = (app, { outcome, criterion, rule, node }) => (one) => (!outcome || one.outcome === outcome) && (!node || String(one.node) === node)
  && (!criterion || app.rules.rule(one.rule).criteria.includes(criterion)) && (!rule || one.rule === rule);

/** A link to judge an outcome, or to look closer where this person may not judge; null where nobody judges it. */
function judgeLink(app, page, outcome, about) {
  if (!isForPeople(outcome)) return null;
  const { site, page: name } = app.words;
  const others = page.sizes(outcome) - 1;
  const judging = outcome.by ? 'Judge again' : 'Judge';
  return el('p', {}, app.link({ site, page: name, judge: placeOf(outcome) }, `${page.needed ? 'Look closer' : judging}: ${about}`),
    others ? ` One question with ${counted(others, 'other finding', 'other findings')}.` : '');
}

function target(app, page, outcome) {
  const about = `${page.nodes.kind(outcome.node)}, node ${outcome.node}`;
  return el('li', { class: 'target' },
    el('div', { class: 'facts' }, el('h4', {}, about), facts(page, outcome), historyDetails(page.verdicts, outcome, about), judgeLink(app, page, outcome, about)));
}

/** The findings of one rule with one outcome, of which some are shown; targets with one reason stand together. */
function rulePart(app, page, id, some, all) {
  const reasons = grouped(some, (one) => `${one.reason} ${one.automatic}`);
  const many = counted(all.length, 'finding', 'findings') + (some.length < all.length ? `, ${some.length} of them here` : '');
  return el('div', { class: `rule ${some[0].outcome}` },
    el('h3', {}, app.rules.rule(id).name, ' ', el('small', {}, isForNobody(some[0]) ? 'follows from others' : many)),
    ruleMeta(app.rules, id), [...reasons.values()].map((alike) => el('div', { class: 'reason' }, adviceOf(app.rules, alike[0]),
      el('ul', { class: 'targets' }, alike.map((one) => target(app, page, one))))), mergedPart(app, page, id));
}

/** Whether it is undecided and no person judges it. */
const isForNobody = (outcome) => outcome.outcome === 'cantTell' && isMerged(outcome);

/** Beneath a composite the findings that it merges, which count through it alone; null of another rule. */
function mergedPart(app, page, id) {
  const inputs = app.rules.rule(id).inputs ?? [];
  const merged = page.outcomes.filter((one) => inputs.includes(one.rule));
  if (!merged.length) return null;
  const isOpen = page.outcomes.some((one) => one.rule === id && isForNobody(one));
  return [el('p', { class: 'means' }, `${isOpen ? 'Nobody judges it: it follows from these' : 'It merges these'}, which count through it alone:`), merged.map((one) => el('div', { class: `merged ${one.outcome}` },
    el('p', {}, el('strong', {}, `${HEADINGS[one.outcome]}: ${app.rules.rule(one.rule).name}`)), ruleMeta(app.rules, one.rule), adviceOf(app.rules, one),
    el('ul', { class: 'targets' }, target(app, page, one))))].flat();
}

/** The findings that a person judges: those of the list, and of a composite what it merges in its place. */
function judgedOf(app, page, outcomes) {
  const inputsOf = ({ rule, node }) => page.outcomes.filter((one) => one.node === node && (app.rules.rule(rule).inputs ?? []).includes(one.rule));
  const inputs = outcomes.filter(isForNobody).flatMap(inputsOf);
  return [...outcomes, ...inputs].filter((one) => one.outcome === 'cantTell' && isForPeople(one));
}

/** How many findings have an outcome; of those to judge, how many somebody left open. */
function countOf(app, page, outcome, outcomes) {
  if (outcome !== 'cantTell') return counted(outcomes.length, 'finding', 'findings');
  const judged = judgedOf(app, page, outcomes);
  const left = judged.filter((one) => one.by).length;
  const merged = outcomes.filter(isForNobody).length;
  return [counted(judged.length, 'finding', 'findings'), left ? `${left} of them left open by who judged` : '',
    merged ? `and ${counted(merged, 'composite', 'composites')} that follow${merged === 1 ? 's' : ''} from them` : ''].filter(Boolean).join(', ');
}

/** The findings with one outcome, of which some are shown. */
function section(app, page, outcome, some, all) {
  const byRule = grouped(some, (one) => one.rule);
  return el('section', { class: `outcome ${outcome}`, 'aria-labelledby': outcome },
    el('h2', { id: outcome }, HEADINGS[outcome], ' ', el('small', {}, countOf(app, page, outcome, all))),
    [...byRule].map(([id, ofRule]) => rulePart(app, page, id, ofRule, all.filter((one) => one.rule === id))));
}

/** Says that one node's findings alone are shown; null where no node is chosen. */
function nodePart(app, page) {
  const { node, ...others } = app.words;
  if (!node) return null;
  const about = page.nodes.rows.has(Number(node)) ? `${page.nodes.kind(Number(node))}, node ${node}` : `node ${node}`;
  return el('p', {}, `Only the findings on ${about}. `, app.link(others, 'Show those on all nodes'));
}

/** Links to judge what is open, and to the names of the page. */
function waysOn(app, site, name, page) {
  const open = openQuestions(page.outcomes);
  const findings = open.flat().length;
  const many = counted(open.length, 'question', 'questions') + (findings > open.length ? ` on ${findings} findings` : '');
  return [page.needed && open.length ? el('p', {}, `${many} open. Judging on ${site} takes ${desk.roleNamed(page.needed)}.`) : null,
    el('p', { class: 'buttons' },
      open.length && !page.needed ? app.link({ site, page: name, judge: placeOf(open[0][0]) }, `Judge ${many}, one after another`, { class: 'button' }) : null,
      app.link({ site, page: name, show: 'names' }, 'Names as a screen reader says them', { class: 'button second' }),
      app.link({ site, page: name, show: 'earl' }, 'Judgements from a file', { class: 'button second' }),
      app.link({ site, show: 'put', name }, 'Put its next version', { class: 'button second' }),
      app.link({ site, page: name, show: 'drop' }, 'Take this page away', { class: 'button second' }))];
}

/** The findings of a page that are as the address says, a part of them. */
function listed(app, page, outcomes) {
  const shown = OUTCOMES.map((outcome) => outcomes.filter((one) => one.outcome === outcome));
  const all = shown.flat();
  const { start, part } = partOf(app, all);
  if (!all.length) return el('p', {}, 'Nothing here is as you chose.');
  return [pager(app, start, all.length, 'above'),
    OUTCOMES.map((outcome, place) => [outcome, part.filter((one) => one.outcome === outcome), shown[place]]).filter(([, some]) => some.length)
      .map(([outcome, some, ofOutcome]) => section(app, page, outcome, some, ofOutcome)), pager(app, start, all.length, 'below')].flat();
}

/** Shows a page's findings. */
export async function showPage(app, site, name, current, loaded) {
  const page = loaded ?? await loadPage(site, name);
  if (!current()) return;
  Object.assign(page, { sizes: sizes(page.outcomes), needed: kept.neededRole({ caller: desk.session.caller, site }) });
  const { counting } = app.rules.counting(page.outcomes);
  app.put(`Page ${name} of ${site}`,
    el('p', { class: 'address' }, el('a', { href: page.address, rel: 'noreferrer' }, page.address), ` revision ${page.rev}`),
    waysOn(app, site, name, page), filters(app, counting), nodePart(app, page), listed(app, page, counting.filter(isShown(app, app.words))),
    el('p', { class: 'quiet' }, `${counted(page.inapplicable.length, 'rule', 'rules')} found nothing on this page to judge.`));
}
