// Collects a page, the same with its menu open, and the build of a branch. Run it at the top of the repository.
import { readFile, writeFile } from 'node:fs/promises';
import { chromium } from 'playwright';

const source = await readFile('silvervole/collect/snapshot.js', 'utf8');

// The file is one function, so in parentheses it can be called.
const snapshot = (page, address = null) => page.evaluate(
  `(${source})(${JSON.stringify(address)}, { shadow: true })`);

const browser = await chromium.launch();
try {
  const page = await browser.newPage({ viewport: { width: 1280, height: 900 }, locale: 'en-GB' });
  // Takes note of what components say by ElementInternals, which can't be asked for later.
  await page.addInitScript({ path: 'silvervole/collect/internals.js' });

  await page.goto('https://www.example.org/');
  await writeFile('home.json', await snapshot(page));

  await page.getByRole('button', { name: 'Menu' }).click();
  await writeFile('home-menu.json', await snapshot(page));

  // The build of a branch, written under the address that it will have.
  await page.goto('http://localhost:8080/search');
  await writeFile('search.json', await snapshot(page, 'https://www.example.org/search'));
} finally {
  await browser.close();
}
