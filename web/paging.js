/** A long list in parts, of which the address names one by the number that it begins with. */

import { el } from './dom.js';

const MOST = 100;

/** The part of a list that is shown, and the number of its first; a number that begins no part is as that of the part around it. */
export function partOf(app, list) {
  const wanted = Math.min(Math.max(Number(app.words.from) || 1, 1), Math.max(list.length, 1));
  const start = wanted - 1 - ((wanted - 1) % MOST);
  return { start, part: list.slice(start, start + MOST) };
}

/** The ways to the other parts of a list of so many things; null where it has one part. */
export function pager(app, start, all, where, what = 'Findings') {
  if (all <= MOST) return null;
  const last = all - 1 - ((all - 1) % MOST);
  const to = (from, text) => el('li', {},
    app.link({ ...app.words, from: from ? String(from + 1) : '' }, `${text}: ${from + 1} to ${Math.min(from + MOST, all)}`));
  const ways = [start > MOST ? to(0, 'First') : null, start > 0 ? to(start - MOST, 'Before') : null,
    start < last ? to(start + MOST, 'Next') : null, start + MOST < last ? to(last, 'Last') : null];
  return el('nav', { class: 'places', 'aria-label': `Parts of the ${what.toLowerCase()}, ${where}` },
    el('p', {}, `${what} ${start + 1} to ${Math.min(start + MOST, all)} of ${all}.`), el('ul', {}, ways));
}
