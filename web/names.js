/** The names of a page as a screen reader would say them. */

import { choices, filter } from './choosing.js';
import * as desk from './desk.js';
import { counted, el, grouped } from './dom.js';
import { Nodes } from './nodes.js';
import { atOneRevision } from './pages.js';

/** Where a name comes from, in words, by the word of the desk. */
const SOURCES = {
  LabelledBy: 'from what aria-labelledby refers to',
  AriaLabel: 'from aria-label',
  HostLabel: 'from its label',
  HostText: 'from its alt, value, legend, caption or the like',
  Content: 'from its content',
  Title: 'from its title attribute',
  DocumentTitle: 'from the title element',
  Placeholder: 'from its placeholder',
};

/** The names of a page, and its outcomes at the same revision: the names come without one, so they are asked for in between. */
function loadNames(app, site, page, current) {
  const step = (what, done) => { if (current()) app.progress(`Asking for the ${what} of ${page}, ${done + 1} of 3`, done, 3); };
  return atOneRevision(async () => {
    step('findings', 0);
    const { outcomes, rev } = await desk.outcomes(site, page);
    step('names', 1);
    const names = await desk.names(site, page);
    step('page', 2);
    const shown = await desk.snapshot(site, page);
    return shown.rev === rev ? { names: withTitle(names, new Nodes(shown.snapshot)), outcomes, rev, address: shown.snapshot.url } : null;
  });
}

/** The names, that of the document being its title, as a screen reader says it. */
const withTitle = (names, nodes) => names.map((one) => (one.node === nodes.root && one.role === 'document' && !one.name && nodes.title
  ? { ...one, name: nodes.title, source: 'DocumentTitle' } : one));

/** A link to the findings of a node. */
function found(app, { site, page }, node, outcomes) {
  const failed = outcomes.filter((one) => one.outcome === 'failed').length;
  return app.link({ site, page, node: String(node) }, `${counted(outcomes.length, 'finding', 'findings')} on node ${node}${failed ? `, ${failed} failed` : ''}`);
}

/** Role and name of an element, where the name comes from, and its findings. It has no `value`: with one each, a browser takes minutes to number thousands. */
function entry(app, { name, node, role, source }, outcomes) {
  const said = name ? ['“', el('bdi', {}, name), '”'] : [el('em', { class: 'quiet' }, 'no name')];
  const facts = [`node ${node}`, name ? SOURCES[source] ?? `from ${source}` : null].filter(Boolean).join(', ');
  return el('li', {}, el('div', {}, el('p', {}, el('span', { class: 'role' }, role), ' ', said),
    el('p', { class: 'quiet' }, facts), outcomes ? el('p', {}, found(app, app.words, node, outcomes)) : null));
}

/** The choice of a role among those of the page. */
function roleChoice(app, names) {
  const byRole = [...grouped(names, (one) => one.role)].sort(([one], [other]) => (one < other ? -1 : 1));
  return choices(app, filter(app, 'role', 'Role', 'All roles', byRole.map(([role, some]) => [role, `${role} (${some.length})`])));
}

/** Shows the names of a page. */
export async function showNames(app, site, page, current) {
  const { names, outcomes, rev, address } = await loadNames(app, site, page, current);
  if (!current()) return;
  const { role } = app.words;
  const shown = names.filter((one) => !role || one.role === role);
  const byNode = grouped(app.rules.counting(outcomes).counting, (one) => one.node);
  const nameless = shown.filter((one) => !one.name).length;
  app.put(`Names on page ${page} of ${site}`,
    el('p', { class: 'address' }, el('a', { href: address, rel: 'noreferrer' }, address), ` revision ${rev}`),
    el('p', {}, 'What a screen reader would say of each element that has a role, in the order of the page.'),
    el('p', { class: 'buttons' }, app.link({ site, page }, `All findings of ${page}`, { class: 'button second' })),
    roleChoice(app, names),
    el('section', { 'aria-labelledby': 'said' },
      el('h2', { id: 'said' }, 'Names', ' ', el('small', {}, `${counted(shown.length, 'element', 'elements')}, ${nameless} without a name`)),
      shown.length ? el('ol', { class: 'said' }, shown.map((one) => entry(app, one, byNode.get(one.node)))) : el('p', {}, 'Nothing here is as you chose.')),
    el('p', { class: 'quiet' }, 'Not every element needs a name: where one is missing that has to be there, a finding says so.'));
}
