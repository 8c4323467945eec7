/** Which elements of a page others own by aria-owns, as the desk follows them. */

// The characters of Unicode's White_Space.
const WHITE = /[\t-\r \x85\xa0\u1680\u2000-\u200a\u2028\u2029\u202f\u205f\u3000]+/;

/**
 * By the number of each element that others own, theirs, in the order of the page. An id finds the first element that has it, and an
 * element owns neither itself nor what it stands in or holds.
 * @param {import('./nodes.js').Nodes} nodes
 */
export function ownersIn(nodes) {
  const [first, found] = [new Map(), new Map()];
  for (const { n } of nodes.list) {
    const id = nodes.attribute(n, 'id');
    if (id && !first.has(id)) first.set(id, n);
  }
  for (const { n } of nodes.list) {
    for (const token of new Set((nodes.attribute(n, 'aria-owns') ?? '').split(WHITE))) {
      const owned = first.get(token);
      if (owned === undefined || nodes.holds(n, owned) || nodes.holds(owned, n)) continue;
      if (!found.has(owned)) found.set(owned, []);
      found.get(owned).push(n);
    }
  }
  return found;
}
