// Runs the JavaScript of docs/PHONE.md, a file page.js in the folder given, on the sheet on standard input. It prints the
// fields of the sheet's answer, and the first four of the answers on site: to a start, to a wall added, and to the wall of
// row 6 deleted. What a browser fetches from beside the page is read from that folder.
import { readFile } from "node:fs/promises";
import { readFileSync } from "node:fs";
import { join } from "node:path";
import { pathToFileURL } from "node:url";

const folder = process.argv[2];
globalThis.fetch = async (name) => new Response(await readFile(join(folder, name)));
const { scoreSheet, startOnSite, addWall, deleteWall } = await import(pathToFileURL(join(folder, "page.js")).href);
const sheet = new Uint8Array(readFileSync(0));
console.log(Object.values(scoreSheet(sheet)).join(" "));
for (const answer of [startOnSite(sheet), addWall([4, 1, 1, 2, 20, 2000, 1, 1]), deleteWall(6)]) {
    console.log(Object.values(answer).slice(0, 4).join(" "));
}
