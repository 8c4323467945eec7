/** Asks the desk, and says what it refused. */

const PATIENCE = 300_000;
// How often a request is sent where the proxy takes no more for now, and how many seconds go by between where it doesn't say.
const TRIES = 6;
const PAUSE = 2;

/** Why a request wasn't done: the desk's refusal, the proxy's, or that nobody answered. */
export class Refusal extends Error {
  constructor(status, body) {
    super(body.refused ?? 'DeskAway');
    this.status = status;
    this.body = body;
  }

  get name() { return this.message; }
}

const readable = (text) => {
  try { return JSON.parse(text); } catch { return {}; }
};

/** What a promise gives; where it fails, the refusal that the desk is away. */
const reached = (promise) => promise.catch(() => { throw new Refusal(0, { refused: 'DeskAway' }); });

/** Who is signed in, as the proxy said with its last reply; empty where it named nobody. */
export const session = { caller: '' };

/** Keeps the name that a reply of the proxy brings, or that it takes nobody for signed in. */
export function noteCaller(reply) {
  session.caller = reply.headers.get('x-caller') ?? (reply.status === 401 ? '' : session.caller);
}

const pause = (seconds) => new Promise((done) => { setTimeout(done, seconds * 1000); });

/** The reply to a request. Where the proxy takes no more for now, it hasn't asked the desk: it is asked again a little later. */
async function replyTo(path, given) {
  for (let tries = 1; ; tries += 1) {
    const reply = await reached(fetch(path, { ...given, cache: 'no-store', redirect: 'error', signal: /** @type {any} */ (AbortSignal).timeout(PATIENCE) }));
    if (reply.status !== 429 || tries === TRIES) return reply;
    await pause(Number(reply.headers.get('retry-after')) || PAUSE);
  }
}

/** What is sent: a file as it is, and anything else as JSON. */
const sent = (body) => (body instanceof Blob ? body : JSON.stringify(body));

/** An accepted reply, whose body is yet to be read; a Refusal otherwise. */
async function accepted(method, path, body, rev) {
  const reply = await replyTo(path, { method, ...(rev === undefined ? {} : { headers: { 'x-rev': String(rev) } }), ...(body === undefined ? {} : { body: sent(body) }) });
  noteCaller(reply);
  if (reply.ok) return reply;
  const refused = readable(await reached(reply.text()));
  throw new Refusal(reply.status, refused.refused ? refused : { refused: reply.status === 401 ? 'NoCaller' : 'DeskAway' });
}

/** The text of an accepted reply; a Refusal otherwise. */
const ask = async (method, path, body, rev) => reached((await accepted(method, path, body, rev)).text());

const sitePath = (site) => `/sites/${encodeURIComponent(site)}`;
const pagePath = (site, page) => `${sitePath(site)}/pages/${encodeURIComponent(page)}`;

export const outcomes = async (site, page) => JSON.parse(await ask('GET', `${pagePath(site, page)}/outcomes`));
export const snapshot = async (site, page) => JSON.parse(await ask('GET', pagePath(site, page)));
export const names = async (site, page) => JSON.parse(await ask('GET', `${pagePath(site, page)}/names`)).names;
export const putLanguages = async (site, languages) => JSON.parse(await ask('PUT', `${sitePath(site)}/languages`, { languages }));
export const verdicts = async (site, page) => JSON.parse(await ask('GET', `${pagePath(site, page)}/verdicts`));
export const members = async (site) => JSON.parse(await ask('GET', `${sitePath(site)}/members`)).members;
export const memberships = async () => JSON.parse(await ask('GET', '/memberships')).memberships;
export const makeSite = async (site) => JSON.parse(await ask('PUT', sitePath(site)));
export const putMember = async (site, member, role) => JSON.parse(await ask('PUT', `${sitePath(site)}/members/${encodeURIComponent(member)}`, { role }));
export const putPage = async (site, page, rev, file) => JSON.parse(await ask('PUT', pagePath(site, page), file, rev));
export const dropPage = async (site, page, rev) => JSON.parse(await ask('DELETE', pagePath(site, page), undefined, rev));
export const siteReport = (site) => ask('GET', `${sitePath(site)}/report`);
export const takeEarl = async (site, page, entries) => JSON.parse(await ask('POST', `${pagePath(site, page)}/earl`, { '@graph': entries }));
export const judge = async (site, page, judgement) => JSON.parse(await ask('POST', `${pagePath(site, page)}/judgements`, judgement));

/**
 * A site's outcomes as a file: `csv` or `earl`. A Refusal where the desk refuses, or the connection ends before the file.
 * @param {string} site
 * @param {string} form
 * @param {(bytes: number, all: number) => void} came is told how many bytes came, of how many; 0 where that isn't known
 */
export async function siteFile(site, form, came) {
  const reply = await accepted('GET', `${sitePath(site)}/${form}`);
  const all = Number(reply.headers.get('content-length'));
  const reader = reply.body.getReader();
  const parts = [];
  let bytes = 0;
  for (let part = await reached(reader.read()); !part.done; part = await reached(reader.read())) {
    parts.push(part.value);
    bytes += part.value.length;
    came(bytes, all);
  }
  return new Blob(parts, { type: reply.headers.get('content-type') });
}

const ROLES = { judge: 'a judge', reader: 'a reader', editor: 'an editor', owner: 'an owner' };

/** What is needed, as a person would say it. */
export const roleNamed = (needed) => ROLES[needed] ?? needed;

const SNAPSHOT = 'The file is no snapshot of a page';

const SENTENCES = {
  EvidenceMoved: () => 'The page has changed since you opened it: what the rule looks at is not what you saw.',
  SameHand: () => 'You sent this revision of the page yourself, so somebody else has to judge it.',
  NotAllowed: ({ needed }) => (needed === 'another owner' ? 'Nobody sets the own role: another owner has to.'
    : `You are not allowed to do this on this site: it takes ${roleNamed(needed)}.`),
  NoCaller: () => 'You are not signed in, or under a name that the desk does not take. Sign in again, in another tab, and try once more.',
  NoRoute: () => 'The desk does not know what was asked: a name is not of the form that it takes, or the desk is older than this page.',
  SiteExists: () => 'There is a site of this name already.',
  StaleRevision: ({ current }) => (current ? `The page has been changed: its revision is ${current} now, which you have not seen.` : 'The page is not there any more.'),
  PageLimit: ({ limit }) => (limit === 'pages' ? 'The site is full: it holds 500 pages at most.' : 'The site can give no revision more.'),
  BadJson: () => `${SNAPSHOT}: it is no JSON in UTF-8, or it is cut.`,
  BadShape: ({ field, place }) => `${SNAPSHOT}: what stands at “${field}”, number ${place}, is missing or not of the form.`,
  TreeFault: ({ node }) => `${SNAPSHOT}: its nodes make none, from node ${node} on.`,
  NoSite: () => 'There is no such site.',
  NoPage: () => 'There is no such page.',
  NoTarget: () => 'The page has changed: the rule has nothing to say of this element any more.',
  NotOpen: () => 'The rule decides this by itself now, so there is nothing to judge.',
  OtherSite: () => 'The proxy took this for a request of another site. Open the desk at its own address.',
  TooManyRequests: () => 'Too many requests at once. Wait a moment, and try again.',
  BodyTooLarge: () => 'This is too long for the desk.',
  KeeperFault: () => 'The desk could not reach what it keeps. Nothing was changed. Try again.',
  OutOfMemory: () => 'The desk had no memory for this. Nothing was changed. Try again.',
  DeskAway: () => 'The desk is away. Try again in a moment.',
};

/** What a refusal means, as a sentence. */
export function told(refusal) {
  if (!(refusal instanceof Refusal)) return `Something went wrong in this page: ${refusal.message}`;
  const sentence = SENTENCES[refusal.name];
  return sentence ? sentence(refusal.body) : `The desk refused it: ${refusal.name}.`;
}
