/** What was judged in another tool, from a file: shown before it is sent. */

import { MOST_ENTRIES, entriesIn, fatesOf } from './claims.js';
import * as desk from './desk.js';
import { counted, el, grouped } from './dom.js';
import * as kept from './kept.js';
import { loadPage } from './pages.js';

const MOST_SHOWN = 100;
const VERDICTS = { passed: 'passed', failed: 'failed', cantTell: 'left open' };

/** One judgement: its rule, its verdict and its place. */
function judgementLine(app, page, { claim, outcome }) {
  const name = app.rules.rule(claim.rule).name;
  const place = page.nodes.rows.has(claim.node) ? `${page.nodes.kind(claim.node)}, node ${claim.node}` : `node ${claim.node}`;
  const before = outcome.by && outcome.by !== desk.session.caller ? `, in place of ${VERDICTS[outcome.outcome]} by ${outcome.by}` : '';
  return el('li', {}, el('strong', {}, `${VERDICTS[claim.verdict]}${before}: `), `${name}: ${place}`, claim.note ? el('p', { class: 'quiet' }, claim.note) : null);
}

/** A list of which the first few are shown. */
function listOf(lines) {
  const rest = lines.length - MOST_SHOWN;
  return [el('ul', {}, lines.slice(0, MOST_SHOWN).map((line) => line())), rest > 0 ? el('p', { class: 'quiet' }, `And ${rest} more.`) : null];
}

/** The judgements with one fate. */
function judgementsPart(app, page, id, title, fates) {
  return fates.length ? el('section', { 'aria-labelledby': id }, el('h2', { id }, title, ' ', el('small', {}, String(fates.length))),
    listOf(fates.map((one) => () => judgementLine(app, page, one)))) : null;
}

/** What is skipped, by why. */
function skippedPart(fates) {
  const byWhy = [...grouped(fates, (one) => one.why)];
  return fates.length ? el('section', { 'aria-labelledby': 'skipped' }, el('h2', { id: 'skipped' }, 'Skipped ', el('small', {}, String(fates.length))),
    el('ul', {}, byWhy.map(([why, some]) => el('li', {}, `${counted(some.length, 'entry', 'entries')}: ${why}.`)))) : null;
}

/** A field for a file, what becomes of its entries, and a button that sends those that are new. */
class Taking {
  constructor(app, place, page) {
    this.app = app;
    this.place = place;
    this.page = page;
    this.entries = null;
    this.isSending = false;
    this.told = el('div', { role: 'alert' });
    this.shown = el('div');
    this.field = el('input', { type: 'file', id: 'file', accept: '.jsonld,.json,application/ld+json,application/json', 'aria-describedby': 'file-hint',
      onclick: () => { this.field.value = ''; }, // so that a file that was changed can be chosen again
      onchange: () => this.read() });
  }

  parts() {
    return [el('div', { class: 'typed' }, el('label', { for: 'file' }, 'A file of judgements'), this.field,
      el('p', { class: 'quiet', id: 'file-hint' }, 'EARL in JSON-LD, as silvervole earl --write makes it: with the number of the node, and the digest of the evidence that was seen. '
        + 'Nothing is sent before you say so.')), this.told, this.shown];
  }

  tell(text) {
    this.told.replaceChildren(el('div', { class: 'told' }, el('p', {}, text)));
    this.app.say('');
  }

  /** Reads the file that was chosen. */
  async read() {
    const [file] = this.field.files;
    this.told.replaceChildren();
    this.shown.replaceChildren();
    this.entries = null;
    if (!file) return;
    const entries = entriesIn(await file.text());
    if (!entries) this.tell(`${file.name} is no EARL in JSON-LD: it has no list under “@graph”.`);
    else if (entries.length > MOST_ENTRIES) this.tell(`${file.name} has ${entries.length} entries, and the desk takes ${MOST_ENTRIES} at once.`);
    else {
      this.entries = entries;
      this.show();
    }
  }

  /** What becomes of the entries on the page as it is. */
  fates() { return fatesOf(this.entries, this.page, desk.session.caller); }

  show() {
    const fates = grouped(this.fates(), (one) => one.fate);
    const [added, known, skipped] = ['added', 'known', 'skipped'].map((fate) => fates.get(fate) ?? []);
    const send = el('button', { type: 'button', onclick: () => this.send(added) }, `Send ${counted(added.length, 'judgement', 'judgements')}`);
    this.shown.replaceChildren(...[el('p', { class: 'buttons' }, added.length ? send : null),
      judgementsPart(this.app, this.page, 'added', 'Would be added', added), judgementsPart(this.app, this.page, 'known', 'Known already', known), skippedPart(skipped)].filter(Boolean));
    this.app.say(`Of the file ${added.length} would be added, ${known.length} known, ${skipped.length} skipped.`);
  }

  /** Sends what would be added; where that is refused, the file stays. */
  async send(added) {
    const { site, page } = this.place;
    if (this.isSending) return;
    this.isSending = true;
    this.told.replaceChildren();
    this.app.say(`Sending ${counted(added.length, 'judgement', 'judgements')}…`);
    try {
      const reply = await desk.takeEarl(site, page, added.map((one) => one.entry));
      kept.keepNeededRole(this.place, null);
      this.page = await loadPage(site, page);
      this.show();
      this.app.say(`The desk added ${reply.added}, knew ${reply.known}, and skipped ${reply.skipped}.`);
    } catch (error) {
      if (error.name === 'NotAllowed') kept.keepNeededRole(this.place, error.body.needed);
      this.tell(`${desk.told(error)} Nothing was added.`);
    }
    this.isSending = false;
  }
}

/** In place of the field, where the desk refused this person's role: what is needed, and a way to try again. */
function notOffered(app, place, needed) {
  const again = () => { kept.keepNeededRole(place, null); app.show(); };
  return el('div', { class: 'card' }, el('p', {}, `You can't add judgements here: on ${place.site} that takes ${desk.roleNamed(needed)}.`),
    el('p', { class: 'buttons' }, el('button', { type: 'button', class: 'second', onclick: again }, 'I have that role now')));
}

/** Shows how a page takes judgements from a file. */
export async function showTaking(app, site, name, current) {
  const page = await loadPage(site, name);
  if (!current()) return;
  const place = { caller: desk.session.caller, site, page: name };
  const needed = kept.neededRole(place);
  app.put(`Judgements of page ${name} from a file`,
    el('p', {}, 'What you judged in another tool is taken under your name, where the evidence is the same as you saw.'),
    needed ? notOffered(app, place, needed) : new Taking(app, place, page).parts(),
    el('p', {}, app.link({ site, page: name }, `Findings of page ${name}`)));
}
