/** What this browser keeps for each person: notes that the desk hasn't taken yet, the languages that they set, and on which sites it refused their role. */

const memory = new Map();

/**
 * The value under a key; what can't be kept by the browser is kept as long as this page is open.
 * @param {string} key
 * @param {'localStorage'|'sessionStorage'} store
 */
function read(key, store) {
  if (memory.has(key)) return memory.get(key);
  try { return window[store].getItem(key); } catch { return null; }
}

/**
 * Keeps a value under a key; null takes it away.
 * @param {string} key
 * @param {'localStorage'|'sessionStorage'} store
 * @param {string|null} value
 */
function write(key, store, value) {
  memory.set(key, value);
  try {
    if (value === null) window[store].removeItem(key);
    else window[store].setItem(key, value);
  } catch { /* it is kept in memory */ }
}

// Names have no slash. Notes outlive the browser's window; a refused role is forgotten with it.
const draftKey = ({ caller, site, page, rule, node }) => `draft:${[caller, site, page, rule, node].join('/')}`;
const roleKey = ({ caller, site, asks }) => `role:${[caller, site, ...(asks ? [asks] : [])].join('/')}`;
const languagesKey = ({ caller, site }) => `languages:${[caller, site].join('/')}`;

/** The note and verdict that a person began for an outcome. */
export const draft = (place) => JSON.parse(read(draftKey(place), 'localStorage') ?? '{"note":"","verdict":""}');
export const keepDraft = (place, begun) => write(draftKey(place), 'localStorage', JSON.stringify(begun));
export const dropDraft = (place) => write(draftKey(place), 'localStorage', null);

/** The languages that a person last set for a site, and when; null where none were set from this browser. */
export const languagesSet = (place) => JSON.parse(read(languagesKey(place), 'localStorage') ?? 'null');
export const keepLanguages = (place, set) => write(languagesKey(place), 'localStorage', JSON.stringify(set));

/** The role that a person lacks on a site to do what they asked, judging where nothing else is said; null where the desk said of none. */
export const neededRole = (place) => read(roleKey(place), 'sessionStorage');
export const keepNeededRole = (place, needed) => write(roleKey(place), 'sessionStorage', needed);
