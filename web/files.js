/** A site's outcomes as files. */

import * as desk from './desk.js';
import { el } from './dom.js';

const FILES = [['csv', 'CSV', 'csv'], ['earl', 'EARL', 'jsonld']];
const KEPT = 60_000;

const inKilobytes = (bytes) => `${Math.ceil(bytes / 1000)} kB`;

/** Gives the browser a file to save, as where a person follows a link to it. */
function save(name, file) {
  const address = URL.createObjectURL(file);
  el('a', { href: address, download: name }).click();
  setTimeout(() => URL.revokeObjectURL(address), KEPT);
}

/** Buttons that fetch the files, with how far that has come, and why it wasn't done. */
export function filesPart(site) {
  const said = el('p', { role: 'status', class: 'fetched' });
  const bar = el('div');
  const told = el('div', { role: 'alert' });
  const came = (name) => (bytes, all) => bar.replaceChildren(
    ...(all ? [el('progress', { 'aria-label': `How much of ${name} is there`, value: String(bytes), max: String(all) })] : []),
    el('p', { class: 'quiet' }, all ? `${inKilobytes(bytes)} of ${inKilobytes(all)}` : inKilobytes(bytes)));
  let isAsking = false;
  const fetchFile = async (form, name) => {
    if (isAsking) return; // the one file is on its way
    isAsking = true;
    told.replaceChildren();
    said.textContent = `Asking for ${name}…`;
    try {
      save(name, await desk.siteFile(site, form, came(name)));
      said.textContent = `The browser has ${name}.`;
    } catch (error) {
      told.replaceChildren(el('div', { class: 'told' }, el('p', {}, `${desk.told(error)} No file was saved.`)));
      said.textContent = '';
    }
    bar.replaceChildren();
    isAsking = false;
  };
  return el('section', { 'aria-labelledby': 'files' }, el('h2', { id: 'files' }, 'As files'),
    el('p', {}, 'All outcomes of all pages as they are now: CSV for a spreadsheet, EARL for other programs that read audits.'),
    el('p', { class: 'buttons' }, FILES.map(([form, word, ending]) => el('button', { type: 'button', class: 'second', onclick: () => fetchFile(form, `${site}.${ending}`) }, `Save as ${word}`))),
    said, bar, told);
}
