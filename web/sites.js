/** The start, and a site: its success criteria, its pages with their counts, and its files. */

import * as desk from './desk.js';
import { counted, el, table } from './dom.js';
import { filesPart } from './files.js';
import { nameForm } from './naming.js';
import { pager, partOf } from './paging.js';
import { readReport, RESULTS } from './report.js';

const NARROW = '(max-width: 30rem)';

/** The sites of which this person is a member, each with the role there, a part of them. */
function ownPart(app, memberships) {
  const { start, part } = partOf(app, memberships);
  const rows = part.map(({ site, role }) => [app.link({ site }, site), role]);
  return el('section', { 'aria-labelledby': 'own' }, el('h2', { id: 'own' }, 'Your sites'),
    memberships.length ? [table('Your sites with your role', ['Site', 'Your role'], rows), pager(app, start, memberships.length, 'below', 'Sites')].filter(Boolean)
      : el('p', {}, 'You are no member of a site. Make one, or ask an owner of one to let you in.'));
}

/** A form that makes a site, with why it wasn't made. */
function makingPart(app) {
  const told = el('div', { role: 'alert' });
  let isSending = false;
  const make = async (site) => {
    if (isSending) return;
    isSending = true;
    told.replaceChildren();
    app.say(`Sending: the site ${site} is to be made…`);
    try {
      await desk.makeSite(site);
      await app.go({ site });
      app.say(`The desk has the site ${site}, and you own it.`);
    } catch (error) {
      told.replaceChildren(el('div', { class: 'told' }, el('p', {}, `${desk.told(error)} Nothing was changed.`)));
      app.say('');
    }
    isSending = false;
  };
  return el('section', { 'aria-labelledby': 'make' }, el('h2', { id: 'make' }, 'Make a site'),
    el('p', {}, 'Whoever makes a site owns it, and lets others in.'), nameForm('new', 'Name of the new site', 'Make the site', make), told);
}

/** Shows the sites of this person, and asks for one. */
export async function showStart(app, current) {
  const memberships = await desk.memberships();
  if (!current()) return;
  app.put('Choose a site', ownPart(app, memberships),
    el('section', { 'aria-labelledby': 'by-name' }, el('h2', { id: 'by-name' }, 'A site by name'), nameForm('site', 'Site', 'Show the site', (site) => app.go({ site }))),
    makingPart(app));
}

/** A count, which leads to the findings of this outcome where there are some. */
const counting = (app, site, page, outcome, count, text) => (count ? app.link({ site, page, outcome }, text) : '0');

/** What is said of a page, by the table's columns. */
const pageRow = (app, site, { name, rev, counts }) => [
  app.link({ site, page: name }, name), String(rev),
  counting(app, site, name, 'failed', counts.failed, `${counts.failed} failed on ${name}`),
  counting(app, site, name, 'cantTell', counts.cantTell, `${counts.cantTell} undecided on ${name}`),
  String(counts.passed), String(counts.inapplicable)];

const COLUMNS = ['Page', 'Revision', 'Failed', 'Undecided', 'Passed', 'Rules without a target'];

/** A page as an entry of a list, as on a narrow screen. */
function pageEntry(app, site, page) {
  const [name, ...rest] = pageRow(app, site, page);
  return el('li', { class: 'card' }, el('h3', {}, name), el('dl', { class: 'counts' },
    rest.map((value, place) => el('div', {}, el('dt', {}, COLUMNS[place + 1]), el('dd', {}, value)))));
}

/** The site's pages with their counts: a table, and on a narrow screen a list. */
function pagesList(app, site, pages) {
  const narrow = matchMedia(NARROW);
  const part = el('div');
  const show = () => part.replaceChildren(narrow.matches ? el('ul', { class: 'pages' }, pages.map((page) => pageEntry(app, site, page)))
    : table('Pages with their outcomes', COLUMNS, pages.map((page) => pageRow(app, site, page))));
  const turn = () => (part.isConnected ? show() : narrow.removeEventListener('change', turn));
  narrow.addEventListener('change', turn);
  show();
  return part;
}

/** The site's pages, each with its counts and links to its findings. */
function pagesPart(app, site, pages) {
  return el('section', { 'aria-labelledby': 'pages' }, el('h2', { id: 'pages' }, 'Pages'),
    pages.length ? pagesList(app, site, pages) : el('p', {}, 'This site has no page.'),
    el('p', { class: 'quiet' }, 'These are the report\'s sums, which count each rule. Undecided is what waits for a person to judge, and a composite rule that follows from it, which nobody judges. '
      + 'A page\'s findings count what a composite merges through it alone.'),
    nameForm('page', 'Page by name', 'Show the page', (page) => app.go({ site, page })));
}

/** A criterion's name as a link to its text, where the table of rules has it. */
function criterionCell(app, number) {
  const known = app.rules.criteria.find((one) => one.number === number);
  return known ? el('a', { href: app.rules.criterionLink(known), rel: 'noreferrer' }, `${number} ${known.name}`) : number;
}

const criterionRow = (app, { number, level, result }) => [
  criterionCell(app, number), level, el('span', { class: `result ${result}` }, RESULTS[result]?.[0] ?? result)];

/** The criteria with their results, and what the results mean. */
function criteriaPart(app, criteria) {
  return el('section', { 'aria-labelledby': 'criteria' }, el('h2', { id: 'criteria' }, 'Success criteria'),
    table('Success criteria with their results', ['WCAG 2.2 criterion', 'Level', 'Result'], criteria.map((one) => criterionRow(app, one))),
    el('dl', { class: 'advice results' }, Object.values(RESULTS).map(([word, means]) => el('div', {}, el('dt', {}, word), el('dd', {}, means)))),
    el('p', { class: 'quiet' }, 'No result says that a criterion is met: these rules look at a part of each.'));
}

/** Shows a site, all of it from one report. */
export async function showSite(app, site, current) {
  const { pages, criteria, total } = readReport(await desk.siteReport(site));
  if (!current()) return;
  app.put(`Site ${site}`,
    el('p', {}, `${counted(pages.length, 'page', 'pages')}. Findings: ${total.failed} failed, ${total.cantTell} undecided, ${total.passed} passed.`),
    pages.length ? criteriaPart(app, criteria) : null, pagesPart(app, site, pages),
    el('ul', { class: 'ways' }, [['members', 'Members and their roles'], ['put', 'Put a page from a snapshot'], ['languages', 'Languages that this site accepts']]
      .map(([show, text]) => el('li', {}, app.link({ site, show }, text)))), filesPart(site));
}
