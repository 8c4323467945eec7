/** The page to judge on: shows what the address names, and moves from one to another. */

import * as desk from './desk.js';
import { el } from './dom.js';
import { loadRules } from './rules.js';
import { showStart, showSite } from './sites.js';
import { showPage } from './findings.js';
import { showJudging } from './judging.js';
import { showLanguages } from './languages.js';
import { showMembers } from './members.js';
import { showDropping, showPutting } from './putting.js';
import { showNames } from './names.js';
import { showTaking } from './taking.js';

const byId = (id) => document.getElementById(id);

/** What is shown of a site, by the address's word. */
const SITE_VIEWS = { languages: showLanguages, members: showMembers, put: showPutting };

/** What the views share: the rules, the address's words, and how to say things. */
class App {
  constructor(rules) {
    this.rules = rules;
    this.shown = 0;
  }

  /** The words of the address: site, page, judge, show, and the filters. */
  get words() { return Object.fromEntries(new URLSearchParams(location.search)); }

  /** The address of other words. */
  address(words) {
    const given = Object.entries(words).filter(([, value]) => value);
    return given.length ? `?${new URLSearchParams(given)}` : './';
  }

  /** A link to other words. */
  link(words, text, given = {}) { return el('a', { href: this.address(words), ...given }, text); }

  /** Says something to people who can't see that it changed. */
  say(text) { byId('status').textContent = text; }

  /** Shows how far long work has come. */
  progress(text, done, all) {
    this.say(text);
    byId('content').replaceChildren(el('progress', { 'aria-label': text, value: String(done), max: String(all) }));
  }

  /** Puts a view in place: its title, what it holds, and the focus at its beginning. */
  put(title, ...parts) {
    document.title = `${title} - Audit desk`;
    byId('title').textContent = title;
    byId('content').replaceChildren(...parts.flat(2).filter((part) => part !== null));
  }

  /** Shows a refusal in place of a view, with a way to try again. */
  refuse(error) {
    this.put('This can\'t be shown', el('div', { class: 'told', role: 'alert' }, el('p', {}, desk.told(error))),
      el('p', { class: 'buttons' }, el('button', { type: 'button', onclick: () => this.show() }, 'Try again')));
    this.say('');
  }

  /** Goes on to other words of the address; where the page's outcomes were just asked for, with those. */
  async go(words, loaded) {
    history.pushState(null, '', this.address(words));
    await this.show(loaded);
    byId('title').focus();
  }

  /** Says who is signed in. */
  tellCaller() {
    const { caller } = desk.session;
    byId('caller').textContent = caller ? `Signed in as ${caller}` : 'Not signed in';
  }

  /** Shows what the address names. */
  async show(loaded) {
    this.shown += 1;
    const mine = this.shown;
    const { site, page, judge, show } = this.words;
    this.trail(site, page);
    this.say('Asking the desk…');
    try {
      const current = () => mine === this.shown;
      if (!site) await showStart(this, current);
      else if (!page) await (SITE_VIEWS[show] ?? showSite)(this, site, current);
      else if (judge) await showJudging(this, site, page, judge, current, loaded);
      else if (show === 'names') await showNames(this, site, page, current);
      else if (show === 'drop') await showDropping(this, site, page, current);
      else if (show === 'earl') await showTaking(this, site, page, current);
      else await showPage(this, site, page, current, loaded);
      if (current()) this.say('');
    } catch (error) {
      if (mine === this.shown) this.refuse(error);
    }
    this.tellCaller();
  }

  /** The way from the desk to what is shown. */
  trail(site, page) {
    const steps = [[{}, 'Audit desk'], site ? [{ site }, site] : null, page ? [{ site, page }, page] : null].filter(Boolean);
    byId('trail').replaceChildren(...steps.map(([words, text]) => el('li', {}, this.link(words, text))));
  }
}

/** Follows links within the desk without leaving the page, so that nothing that was typed is lost. */
function followLinks(app) {
  document.addEventListener('click', (event) => {
    const link = /** @type {Element} */ (event.target).closest('a[href]');
    if (!link || event.button !== 0 || event.ctrlKey || event.metaKey || event.shiftKey || event.altKey) return;
    const href = link.getAttribute('href');
    if (href === '#main') {
      event.preventDefault();
      byId('main').focus();
    } else if (href.startsWith('?') || href === './') {
      event.preventDefault();
      app.go(Object.fromEntries(new URLSearchParams(href.replace('./', ''))));
    }
  });
  window.addEventListener('popstate', () => app.show());
}

try {
  const app = new App(await loadRules());
  followLinks(app);
  await app.show();
} catch (error) {
  byId('content').replaceChildren(el('p', { role: 'alert' }, `This page could not start: ${error.message}`));
}
document.documentElement.dataset.ready = 'true';
