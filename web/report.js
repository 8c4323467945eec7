/** A site's report: its pages with their counts, and its success criteria with their results. */

const COUNTS = 'passed (\\d+) failed (\\d+) cantTell (\\d+) inapplicable (\\d+)';
const SITE = /^site \S+$/;
const PAGE = new RegExp(`^page (\\S+) rev (\\d+) ${COUNTS}$`);
const CRITERION = /^criterion (\S+) (A+) (\S+)$/;
const TOTAL = new RegExp(`^total pages (\\d+) ${COUNTS}$`);

/** @type {(counts: string[]) => Record<string, number>} */
const countsOf = ([passed, failed, cantTell, inapplicable]) => ({ passed: Number(passed), failed: Number(failed), cantTell: Number(cantTell), inapplicable: Number(inapplicable) });

/** The text of a site's report as pages, criteria and the sums over all pages; an Error where it isn't one. */
export function readReport(text) {
  const [first, ...lines] = text.split('\n');
  const end = lines.pop();
  const total = TOTAL.exec(lines.pop());
  if (!SITE.test(first) || !total || end !== '') throw new Error('what the desk sent is no report of a site.');
  const pages = [];
  const criteria = [];
  for (const line of lines) {
    const [, name, rev, ...counts] = PAGE.exec(line) ?? [];
    const [, number, level, result] = CRITERION.exec(line) ?? [];
    if (name) pages.push({ name, rev: Number(rev), counts: countsOf(counts) });
    else if (number) criteria.push({ number, level, result });
    else throw new Error(`a line of the site's report can't be read: ${line}`);
  }
  return { pages, criteria, total: countsOf(total.slice(2)) };
}

/** The results of a criterion in words, and what each means. No word says that a criterion is met. */
export const RESULTS = {
  failed: ['Failed', 'Something on the pages fails a rule under this criterion: by the rule itself, or as a person judged.'],
  cantTell: ['For a person to judge', 'Nothing failed, and something waits for a person to say whether it passes.'],
  noFailureFound: ['No failure found', 'All that the rules under this criterion looked at passed. They look at a part of it.'],
  inapplicable: ['Nothing to look at', 'The pages have nothing that the rules under this criterion look at.'],
};
