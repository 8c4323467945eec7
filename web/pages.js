/** A page of a site, as several replies of the desk have it at one revision. */

import * as desk from './desk.js';
import { Nodes } from './nodes.js';

const TRIES = 3;

/**
 * What a function gives that asks the desk for several things. Where it gives null, since the page was changed in between, it is
 * called again; a Refusal where that doesn't end.
 */
export async function atOneRevision(ask) {
  for (let tries = 0; tries < TRIES; tries += 1) {
    const found = await ask();
    if (found) return found;
  }
  throw new desk.Refusal(409, { refused: 'EvidenceMoved' });
}

/** The outcomes of a page, what people judged of it, and its nodes. */
export const loadPage = (site, page) => atOneRevision(async () => {
  const [reply, shown, said] = await Promise.all([desk.outcomes(site, page), desk.snapshot(site, page), desk.verdicts(site, page)]);
  if (reply.rev !== shown.rev || reply.rev !== said.rev) return null;
  const { outcomes, inapplicable, rev } = reply;
  return { outcomes, inapplicable, rev, verdicts: said.verdicts, nodes: new Nodes(shown.snapshot), address: shown.snapshot.url };
});
