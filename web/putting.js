/** Puts a page from a snapshot in a file, and takes a page away. */

import * as desk from './desk.js';
import { counted, el } from './dom.js';
import { mayOr, roleOf } from './members.js';
import { nameField } from './naming.js';
import { readReport } from './report.js';

const EDITS = ['editor', 'owner'];

/** Sends something once, and tells why it wasn't done. */
class Sending {
  constructor(app) {
    this.app = app;
    this.isSending = false;
    this.told = el('div', { role: 'alert' });
  }

  /**
   * Sends it; where the desk refuses, says so, with a way on where there is one.
   * @param {string} saying
   * @param {() => Promise<void>} send
   * @param {(error: Error) => Node|null} wayOn
   */
  async send(saying, send, wayOn) {
    if (this.isSending) return;
    this.told.replaceChildren();
    this.isSending = true;
    this.app.say(saying);
    try {
      await send();
    } catch (error) {
      this.told.replaceChildren(el('div', { class: 'told' }, el('p', {}, `${desk.told(error)} Nothing was changed.`), wayOn(error)));
      this.app.say('');
    }
    this.isSending = false;
  }
}

const fileField = () => el('div', {}, el('label', { for: 'snapshot' }, 'Snapshot'),
  el('input', { type: 'file', id: 'snapshot', name: 'snapshot', required: true, accept: '.json,application/json', 'aria-describedby': 'snapshot-hint' }),
  el('p', { class: 'quiet', id: 'snapshot-hint' }, 'A file that silvervole collect wrote, of at most 8 MiB.'));

/** What the counts of a page come to, as a sentence. */
const sums = ({ failed, cantTell, passed }) => `${failed} failed, ${cantTell} undecided, ${passed} passed`;

/** Shows a form that puts a page of a site. The revision sent is the one that its report had. */
export async function showPutting(app, site, current) {
  const [report, members] = await Promise.all([desk.siteReport(site), desk.members(site)]);
  if (!current()) return;
  const revs = new Map(readReport(report).pages.map(({ name, rev }) => [name, rev]));
  const sending = new Sending(app);
  const about = el('p', { role: 'status' });
  const tell = (form) => {
    const name = form.elements.page.value;
    about.textContent = revs.has(name) ? `There is a page ${name}, at revision ${revs.get(name)}: the snapshot takes its place. What people judged of it is kept.` : '';
  };
  const put = (form) => {
    const name = form.elements.page.value;
    const again = (error) => (error.name === 'StaleRevision' ? el('button', { type: 'button', onclick: () => app.show() }, 'Look at the site as it is now') : null);
    return sending.send(`Sending the page ${name}. The desk audits it…`, async () => {
      const { rev, summary } = await desk.putPage(site, name, revs.get(name) ?? 0, form.elements.snapshot.files[0]);
      await app.go({ site, page: name });
      app.say(`The desk has the page ${name} at revision ${rev}: ${sums(summary)}.`);
    }, again);
  };
  const form = () => el('form', { 'aria-label': 'Put a page', class: 'choose', oninput: (event) => tell(event.currentTarget),
    onsubmit: (event) => { event.preventDefault(); put(event.currentTarget); } },
  nameField('page', 'Page', app.words.name), fileField(), el('div', {}, el('button', { type: 'submit' }, 'Put the page')), about, sending.told);
  app.put(`Put a page of ${site}`, mayOr(roleOf(members, desk.session.caller), EDITS, form, 'editor'), el('p', {}, app.link({ site }, `All pages of ${site}`)));
}

/** Shows the question whether a page is to be taken away. */
export async function showDropping(app, site, page, current) {
  const [{ rev, verdicts }, members] = await Promise.all([desk.verdicts(site, page), desk.members(site)]);
  if (!current()) return;
  const sending = new Sending(app);
  const again = (error) => (error.name === 'StaleRevision' ? el('button', { type: 'button', onclick: () => app.show() }, 'Ask again of the page as it is now') : null);
  const drop = () => sending.send(`Sending: the page ${page} is to go…`, async () => {
    await desk.dropPage(site, page, rev);
    await app.go({ site });
    app.say(`The page ${page} is gone.`);
  }, again);
  const question = () => el('div', { class: 'card' },
    el('p', {}, `Revision ${rev} of the page is there, and ${counted(verdicts.length, 'judgement', 'judgements')} with its notes. All of it goes, and nothing brings it back.`),
    sending.told,
    el('p', { class: 'buttons' }, el('button', { type: 'button', onclick: drop }, 'Take the page away'),
      app.link({ site, page }, 'Keep it', { class: 'button second' })));
  app.put(`Take ${page} of ${site} away?`, mayOr(roleOf(members, desk.session.caller), EDITS, question, 'editor'), el('p', {}, app.link({ site, page }, `All findings of ${page}`)));
}
