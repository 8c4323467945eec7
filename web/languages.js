/** The languages of three letters that a site accepts: a list, which its owners set. */

import * as desk from './desk.js';
import { counted, el } from './dom.js';
import * as kept from './kept.js';
import { readReport } from './report.js';

const MOST = 1000;
const SUBTAG = /^[a-z]{3}$/;

/** The entries of what was typed. */
const entriesIn = (text) => text.split(/[\s,;]+/).filter(Boolean);

/** The subtag of a language tag, where the site's list decides on it; null of another tag. */
export function subtagOf(tag) {
  const subtag = tag.split('-')[0].toLowerCase();
  return SUBTAG.test(subtag) ? subtag : null;
}

/** Why the desk would refuse a list; empty where it takes it. */
export function faultIn(entries) {
  const place = entries.findIndex((entry, at) => at >= MOST || !SUBTAG.test(entry) || entries.indexOf(entry) < at);
  if (place < 0) return '';
  if (place >= MOST) return `The list has ${entries.length} entries, and the desk takes ${MOST}.`;
  const entry = entries[place];
  return `Entry ${place + 1}, “${entry}”, ${SUBTAG.test(entry) ? 'stands there twice' : 'is not three small letters'}.`;
}

/** What is known of the list: what this person last set from this browser. The desk has no request that tells it. */
function knownPart(set) {
  if (!set) return el('p', {}, 'The desk does not tell which list it has, and from this browser you set none yet.');
  const when = el('time', { datetime: set.when }, new Date(set.when).toLocaleString());
  return el('div', {}, el('p', {}, 'As you last set it from this browser, ', when, ':'),
    set.languages.length ? el('ul', { class: 'subtags' }, set.languages.map((one) => el('li', {}, el('code', {}, one)))) : el('p', {}, 'None.'),
    el('p', { class: 'quiet' }, 'The desk does not tell which list it has: another owner may have set another one since.'));
}

/** A form for the list, and what becomes of it. */
class Setting {
  constructor(app, place, pages) {
    this.app = app;
    this.place = place;
    this.pages = pages;
    this.isSending = false;
    const set = kept.languagesSet(place);
    const added = app.words.add && !set?.languages.includes(app.words.add) ? [app.words.add] : [];
    this.known = el('div', {}, knownPart(set));
    this.told = el('div', { role: 'alert' });
    this.field = el('textarea', { id: 'languages', autocomplete: 'off', spellcheck: 'false', autocapitalize: 'none', 'aria-describedby': 'languages-hint' });
    this.field.value = [...set?.languages ?? [], ...added].join(' ');
  }

  form() {
    const send = (event) => { event.preventDefault(); this.send(); };
    return el('form', { 'aria-label': 'Languages', onsubmit: send },
      el('div', { class: 'typed' }, el('label', { for: 'languages' }, 'Subtags that the site accepts'), this.field,
        el('p', { class: 'quiet', id: 'languages-hint' }, `Each is three small letters, such as gsw, and a space stands between two. At most ${MOST}. `
          + 'What you send takes the place of the whole list.')),
      this.told, el('div', { class: 'buttons' }, el('button', { type: 'submit' }, 'Set the list')));
  }

  tell(text) {
    this.told.replaceChildren(el('div', { class: 'told' }, el('p', {}, text)));
    this.app.say('');
  }

  /** Sends the list; where it isn't taken, what was typed stays. */
  async send() {
    const languages = entriesIn(this.field.value);
    const fault = faultIn(languages);
    if (this.isSending) return;
    if (fault) {
      this.tell(`${fault} Nothing was sent.`);
      return;
    }
    this.told.replaceChildren();
    this.isSending = true;
    this.field.readOnly = true; // what is typed while it is sent would be in no list
    this.app.say(`Sending the list. The desk audits ${counted(this.pages, 'page', 'pages')} under it…`);
    try {
      this.taken(languages, await desk.putLanguages(this.place.site, languages));
    } catch (error) {
      if (error.name === 'NotAllowed') kept.keepNeededRole(this.place, error.body.needed);
      this.tell(`${desk.told(error)} What you typed is still here.`);
    }
    this.isSending = false;
    this.field.readOnly = false;
  }

  /** The desk has the list. */
  taken(languages, reply) {
    const set = { languages, when: new Date().toISOString() };
    kept.keepLanguages(this.place, set);
    kept.keepNeededRole(this.place, null);
    this.known.replaceChildren(knownPart(set));
    this.app.say(`The desk has the list: ${counted(reply.languages, 'language', 'languages')}. It audited ${counted(reply.pages, 'page', 'pages')} under it.`);
  }
}

/** In place of the form, where the desk refused this person's role: what is needed, and a way to try again. */
function notOffered(app, place, needed) {
  const again = () => { kept.keepNeededRole(place, null); app.show(); };
  return el('div', { class: 'card' }, el('p', {}, `You can look at this, and not change it: on ${place.site} that takes ${desk.roleNamed(needed)}.`),
    el('p', { class: 'buttons' }, el('button', { type: 'button', class: 'second', onclick: again }, 'I have that role now')));
}

/** A way to have the site accept the language of a finding; null where its list doesn't decide on it. */
export function acceptLink(app, site, { reason, evidence }) {
  const subtag = reason === 'three-letter' ? subtagOf(evidence) : null;
  return subtag && el('p', {}, app.link({ site, show: 'languages', add: subtag }, `Have ${site} accept the language ${subtag}`), ', as its owners can: then it passes on all pages.');
}

/** Shows a site's languages. */
export async function showLanguages(app, site, current) {
  const { pages } = readReport(await desk.siteReport(site));
  if (!current()) return;
  const place = { caller: desk.session.caller, site, asks: 'languages' };
  const needed = kept.neededRole(place);
  const setting = new Setting(app, place, pages.length);
  app.put(`Languages of ${site}`,
    el('p', {}, 'Where a page says that it, or a part of it, is in a language of three letters, nobody can tell from the page whether there is such a one. '
      + 'So a person has to judge it, unless the site accepts the language. The desk knows those of two letters by itself.'),
    el('section', { 'aria-labelledby': 'list' }, el('h2', { id: 'list' }, 'The list'), setting.known),
    el('section', { 'aria-labelledby': 'change' }, el('h2', { id: 'change' }, 'Set the list'), needed ? notOffered(app, place, needed) : setting.form()),
    el('p', {}, app.link({ site }, `All pages of ${site}`)));
}
