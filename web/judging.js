/** One question to judge after another. A note that was typed is kept until the desk has taken it. */

import * as desk from './desk.js';
import { counted, el } from './dom.js';
import { countingOf, historyPart } from './history.js';
import * as kept from './kept.js';
import { acceptLink } from './languages.js';
import { loadPage } from './pages.js';
import { loadPicture, pictureOf } from './pictures.js';
import { alike, nextOpen, nextQuestion, openQuestions } from './questions.js';
import { progressOf, sendEach, takenWords } from './sending.js';
import { adviceOf, closeFacts, isForPeople, placeOf, ruleMeta } from './targets.js';

const MOST_BYTES = 2000;
const VERDICTS = [['passed', 'Passed: it is as the rule asks'], ['failed', 'Failed: it is not'], ['cantTell', 'I can\'t tell']];
const size = (text) => new TextEncoder().encode(text).length;

/** Whether a tenth of all has just been reached: so often progress is said. */
const isTenth = (done, all) => Math.floor((10 * done) / all) > Math.floor((10 * (done - 1)) / all);

/** What a person began of the finding, or of another of its question; undefined where nothing. */
const draftOf = (place, findings) => [place.node, ...findings.map(({ node }) => node)]
  .map((node) => kept.draft({ ...place, node })).find(({ note, verdict }) => note || verdict);

/** What a person begins from: what they began, and else what counts of the finding now. */
function begunOf(place, findings, verdicts) {
  const { note = '', verdict = '' } = draftOf(place, findings) ?? countingOf(verdicts, place) ?? {};
  return { note, verdict };
}

function verdictField(begun) {
  const radio = (value) => el('input', { type: 'radio', name: 'verdict', value, required: true, checked: begun.verdict === value });
  const choices = VERDICTS.map(([value, text]) => el('label', {}, radio(value), el('span', {}, text)));
  return el('fieldset', { class: 'verdict' }, el('legend', {}, 'Your verdict'), choices);
}

function noteField(begun) {
  const note = el('textarea', { id: 'note', name: 'note', 'aria-describedby': 'note-hint', autocomplete: 'off' });
  note.value = begun.note;
  return el('div', { class: 'typed' }, el('label', { for: 'note' }, 'Note'), note,
    el('p', { class: 'quiet', id: 'note-hint' },
      `Why, for those who come after you. At most ${MOST_BYTES} bytes. It is kept for you in this browser until the desk has it.`));
}

/** Whether an answer is for each finding of the question, which has several. */
const aloneField = (findings) => (findings.length === 1 ? null : el('div', { class: 'alone' },
  el('p', {}, `Your answer is sent for each of these ${findings.length} findings.`),
  el('label', {}, el('input', { type: 'checkbox', name: 'alone' }), el('span', {}, 'Only for the one that is shown'))));

/** A form for the answer to a question, and what becomes of it. */
class Answer {
  constructor(app, place, findings, outcome, begun) {
    this.app = app;
    this.place = place;
    this.outcome = outcome;
    this.isSending = false;
    this.isStopped = false;
    // The one that is shown comes first; what the desk took isn't sent again.
    this.left = [outcome, ...findings.filter((one) => one !== outcome)];
    this.begun = begun;
    this.told = el('div', { role: 'alert' });
    this.bar = el('div');
  }

  /** The form, with a way past the question. */
  form(next) {
    const { app, place } = this;
    const send = (event) => { event.preventDefault(); this.send(event.target); };
    const form = el('form', { 'aria-label': 'Judge', oninput: () => kept.keepDraft(place, this.held(form)), onsubmit: send },
      verdictField(this.begun), noteField(this.begun), aloneField(this.left), this.told, this.bar,
      el('div', { class: 'buttons' }, el('button', { type: 'submit' }, 'Judge, and go on'),
        next ? app.link({ site: place.site, page: place.page, judge: placeOf(next) }, 'Leave it open, and go on', { class: 'button second' }) : null));
    return form;
  }

  /** What a form holds now. */
  held(form) {
    const data = new FormData(form);
    return { verdict: data.get('verdict') ?? '', note: data.get('note') ?? '' };
  }

  /** Sends what the form holds, and goes on to the next question. */
  async send(form) {
    const answer = this.held(form);
    if (this.isSending) return;
    if (size(answer.note) > MOST_BYTES) {
      this.tell(`The note has ${size(answer.note)} bytes, and the desk takes ${MOST_BYTES}.`);
      return;
    }
    this.told.replaceChildren();
    this.isSending = true;
    form.note.readOnly = true; // what is typed while it is sent would be in no judgement
    const { shown } = this.app;
    const all = form.alone?.checked ? this.left.slice(0, 1) : this.left;
    const { taken, refusal } = await this.sendAll(all, answer);
    this.isSending = false;
    form.note.readOnly = false;
    if (this.bar.contains(document.activeElement)) form.querySelector('[type=submit]').focus();
    this.bar.replaceChildren();
    this.keep(taken, all, answer);
    if (shown !== this.app.shown) this.app.say(takenWords(taken.length, all.length));
    else if (taken.length === all.length) await this.goOn(taken.length);
    else this.end(taken.length, all.length, refusal);
  }

  /** Keeps what the person began of the first finding that the desk has no answer on, where not all were taken. */
  keep(taken, all, answer) {
    taken.forEach((node) => kept.dropDraft({ ...this.place, node }));
    this.left = this.left.filter(({ node }) => !taken.includes(node));
    if (taken.length) kept.keepNeededRole(this.place, null);
    if (taken.length < all.length) kept.keepDraft({ ...this.place, node: this.left[0].node }, answer);
  }

  /** Sends the answer for each finding, with progress where there are several, as long as the view is shown. */
  async sendAll(all, answer) {
    const { app, place } = this;
    const { shown } = app;
    this.isStopped = false;
    const { part, tell } = progressOf(all.length, () => { this.isStopped = true; });
    if (all.length > 1) this.bar.replaceChildren(part);
    app.say(all.length > 1 ? `Sending ${all.length} answers…` : 'Sending the judgement…');
    const told = (taken) => {
      tell(taken);
      if (all.length > 1 && isTenth(taken, all.length)) app.say(`Sending: ${takenWords(taken, all.length)}`);
    };
    return sendEach(place, all, answer, told, () => this.isStopped || app.shown !== shown);
  }

  /** Says why not all was taken: the form stays as it is, and what is left of it is kept. */
  end(taken, all, refusal) {
    const many = all > 1 ? ` ${takenWords(taken, all)}` : '';
    if (refusal?.name === 'NotAllowed') kept.keepNeededRole(this.place, refusal.body.needed);
    const moved = ['EvidenceMoved', 'NoTarget', 'NotOpen', 'NoPage'].includes(refusal?.name);
    const { site, page } = this.place;
    this.tell(`${refusal ? desk.told(refusal) : 'You stopped it.'}${many} Your note is kept.`,
      moved ? el('button', { type: 'button', onclick: () => this.app.go({ site, page, judge: placeOf(this.left[0]) }) }, 'Show the page as it is now') : null);
  }

  tell(text, button = null) {
    this.told.replaceChildren(el('div', { class: 'told' }, el('p', {}, text), button));
    this.app.say('');
  }

  /** Shows the question that comes next, or the page where none is left. */
  async goOn(taken) {
    const { app, place: { site, page }, outcome } = this;
    const has = taken === 1 ? 'The desk has your judgement' : `The desk has your ${taken} answers`;
    let loaded;
    try {
      loaded = await loadPage(site, page);
    } catch (error) {
      app.refuse(error);
      app.say(`${has}, but the next finding can't be shown.`);
      return;
    }
    const next = nextOpen(loaded.outcomes, outcome);
    await app.go(next ? { site, page, judge: placeOf(next) } : { site, page }, loaded);
    app.say(next ? `${has}. Here is the next one.` : `${has}. Nothing is left to judge on this page.`);
  }
}

/** Where the finding stands among those of its question, with ways to its neighbours; null where it is the only one. */
function placesPart(app, { site, page }, findings, outcome) {
  if (findings.length === 1) return null;
  const at = findings.indexOf(outcome);
  const to = (place, text) => (findings[place] ? el('li', {}, app.link({ site, page, judge: placeOf(findings[place]) }, text)) : null);
  return el('nav', { 'aria-label': 'Findings of this question', class: 'places' },
    el('p', {}, `This is one question on ${findings.length} findings with the same evidence. Shown is number ${at + 1}.`),
    el('ul', {}, to(at - 1, `Number ${at} of them`), to(at + 1, `Number ${at + 2} of them`)));
}

/** In place of the form, where the desk refused this person's role: what is needed, the note, and a way to try again. */
function notOffered(app, place, needed, note) {
  const again = () => { kept.keepNeededRole(place, null); app.show(); };
  return el('div', { class: 'card' }, el('p', {}, `You can look at this, and not judge it: on ${place.site} that takes ${desk.roleNamed(needed)}.`),
    note ? [el('h2', {}, 'Your note on it'), el('pre', {}, note)] : [],
    el('p', { class: 'buttons' }, el('button', { type: 'button', class: 'second', onclick: again }, 'I have that role now')));
}

/** What is said in place of a finding that is no more. */
function nothingHere(app, place, page, back) {
  const { note } = kept.draft(place);
  app.put('Nothing to judge here', el('p', {}, 'The page has changed: this finding is no more, or the rule decides it by itself.'),
    note ? [el('h2', {}, 'Your note on it'), el('pre', {}, note)] : null,
    historyPart(page.verdicts, place, page.outcomes.find((one) => placeOf(one) === placeOf(place))), back);
}

/** How many questions wait on the page, and which this one is. */
function introOf(page, outcome) {
  const open = openQuestions(page.outcomes);
  const findings = open.flat().length;
  const many = findings > open.length ? `, on ${findings} findings` : '';
  return el('p', {}, `${counted(open.length, 'question', 'questions')} on this page to judge${many}. `
    + `This one: ${page.nodes.kind(outcome.node)}, node ${outcome.node}.`);
}

/** Shows a question to judge, at one of its findings. */
export async function showJudging(app, site, name, judge, current, loaded) {
  const [page, picture] = await Promise.all([loaded ?? loadPage(site, name), loadPicture(site, name)]);
  if (!current()) return;
  const [rule, node] = judge.split('-');
  const place = { caller: desk.session.caller, site, page: name, rule, node };
  const outcome = page.outcomes.find((one) => placeOf(one) === judge && isForPeople(one));
  const back = el('p', {}, app.link({ site, page: name }, `All findings of ${name}`));
  if (!outcome) {
    nothingHere(app, place, page, back);
    return;
  }
  const findings = alike(page.outcomes, outcome);
  const needed = kept.neededRole(place);
  const next = nextQuestion(page.outcomes, outcome);
  const begun = begunOf(place, findings, page.verdicts);
  app.put(app.rules.rule(rule).name, introOf(page, outcome), ruleMeta(app.rules, rule), adviceOf(app.rules, outcome), acceptLink(app, site, outcome),
    placesPart(app, place, findings, outcome),
    el('div', { class: 'card close' }, el('div', { class: 'facts' }, closeFacts(page, outcome)),
      picture ? pictureOf(picture, page.nodes, outcome.node, page.rev) : null),
    historyPart(page.verdicts, place, outcome),
    needed ? notOffered(app, place, needed, draftOf(place, findings)?.note) : new Answer(app, place, findings, outcome, begun).form(next), back);
}
