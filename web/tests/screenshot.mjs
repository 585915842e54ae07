// Takes a picture of the page in Chromium, for docs/page.png.
//
// usage: node web/tests/screenshot.mjs PAGE FILE
import { resolve } from "node:path";
import { pathToFileURL } from "node:url";
import { Browser } from "./browser.mjs";

const [page, file] = process.argv.slice(2);
const browser = await Browser.open({ width: 1400, height: 800 });
await browser.goTo(pathToFileURL(resolve(page)).href);
await browser.until("document.documentElement.dataset.ready === 'true'");
await browser.until("document.querySelector('[aria-busy=\"true\"]') === null && document.querySelector('main img') !== null");
await browser.screenshot(file);
await browser.close();
