// Compares what komihash.html of the package shows in Chromium with what it should, such as what
// komihashsum prints: tests_of_page.mjs FOLDER, an empty one for files and Chromium's profile.
// Prints each step that fails, and then how many steps and failures there were.
import { spawnSync } from "node:child_process";
import { mkdirSync, symlinkSync, truncateSync, writeFileSync } from "node:fs";
import { resolve } from "node:path";
import { call, open, run, until } from "./chromium.mjs";

const odd = "a\\b\nc", numbers = (count) => [...Array(count).keys()].join("\n");
process.chdir(process.argv[2]);
for (const name of ["in", "none"]) mkdirSync(`folder/${name}`, { recursive: true });
symlinkSync("folder/in", "in");
for (const [name, text] of Object.entries({ big: numbers(12.5e6), empty: "", huge: "",
    [odd]: numbers(99), "folder/in/x": numbers(5) })) writeFileSync(name, text);
truncateSync("huge", 99 * 2 ** 30); // It takes too long to hash. There is no file `gone`.

const komihashsum = (...words) => spawnSync("komihashsum", words, { encoding: "utf-8" }).stdout;
const tagged = (...names) => komihashsum("-4", "-s", "0xA", "--tag", ...names);
const sum = tagged("empty").trim().slice(-16), wrongSum = sum.replace(/.$/, "0");
writeFileSync("list", komihashsum("big", "./in/x") + tagged(odd, "empty").replace(sum, wrongSum));
writeFileSync("wide", `\ufeff${komihashsum("big").replace(" ", "")}`, "utf16le");

const right = "The file is right";
const lost = "gone, unreadable, or changed since it was chosen; choose it again";
let step = "opening", steps = 0, failures = 0;
process.on("SIGTERM", () => { throw new Error(`${step}: what it waits for takes too long`); });
/** Does a step, waits until files are hashed, and compares expressions, of elements the text. */
async function shows(name, act, wanted) {
    [step, steps] = [name, steps + 1];
    await act();
    await until("hashing.hidden");
    const shown = await run(`Promise.all([${Object.keys(wanted)}]).then((all) =>
        JSON.stringify(all.map((it) => String(it.textContent ?? it).trim())))`);
    const should = JSON.stringify(Object.values(wanted).map((it) => String(it).trim()));
    if (shown === should) return;
    failures++;
    console.log(`${name}: ${Object.keys(wanted)} should be\n${should}, and is\n${shown}`);
}
/** Chooses files by the input that an expression gives. */
const choose = async (input, ...names) => call("DOM.setFileInputFiles", { files: names.map(
    (it) => resolve(it)), objectId: await run(`input = ${input}, input.value = "", input`) });
/** Drops files on the element that an expression gives. */
async function drop(place, ...names) {
    const { x, y } = JSON.parse(await run(`${place}.scrollIntoView(),
        JSON.stringify(${place}.getBoundingClientRect())`));
    const data = { items: [], files: names.map((it) => resolve(it)), dragOperationsMask: 1 };
    for (const type of ["dragEnter", "dragOver", "drop"])
        await call("Input.dispatchDragEvent", { type, x: x + 9, y: y + 9, data });
    await until("wanted.value || !hashing.hidden || lines.textContent || " +
        "!/^Files/.test(doing.textContent)");
}
const dropAlone = (...given) => run("clearer.click()").then(() => drop(...given));

const [url] = ["komihash.html", "package.json"].map(
    (it) => import.meta.resolve(`komihash_rattle/${it}`));
const browser = await open(url, resolve("profile"));
await call("Browser.grantPermissions",
    { permissions: ["clipboardReadWrite", "clipboardSanitizedWrite"] });
await until("!told.textContent");
await run(`watch = (it) => new MutationObserver(it).observe(bar, { attributeFilter: ["value"] })`);

// What the page says of a wrong seed must be in view.
for (const wrong of ["'0b11'", "2n ** 64n"])
    await shows(`seed ${wrong}`, () => choose(`(seed.value = ${wrong}, files)`, "gone", "big"), {
        doubt: "Seeds are whole numbers, 0 to 2^64 - 1, such as 10 or 0xA.",
        "seed.ariaInvalid": true, "doubt.getBoundingClientRect().bottom <= innerHeight": true });
await shows("no seed, and progress", () => run(`changes = 0, watch((all) => changes += all.length),
    seed.value = "", seed.oninput({}), seed.onblur()`), {
    problems: `gone: ${lost}`, "changes > 9 && bar.position === 1": true });
await shows("a restart while `big` is hashed, and Stop while `huge` is", async () => {
    await run(`version.value = 4, restarts = 0, watch((_, it) => {
        if (bar.value > 3e7) { it.disconnect(); restarts++; version.onchange(); }
    })`);
    await choose("(seed.value = '0xA', files)", "huge");
    await until("/huge/.test(doing.textContent)");
    await drop("document.body", odd, "empty", "folder");
    await until("/folder/.test(lines.textContent) && /huge/.test(doing.textContent)");
    await run("stopper.click()");
}, { verdict: "Stopped: 1 of 6 files cannot be read", problems: `gone: ${lost}`, restarts: 1,
    hint: "4 were hashed. To finish, choose the rest again.", "seed.ariaInvalid": false });
await shows("Copy", () => run("copier.click()").then(() => until("copied.textContent")), {
    copied: "Copied. Paste it into a text file.",
    "navigator.clipboard.readText()": tagged("big", odd, "empty", "folder/in/x") });
await shows("no network", () => {}, { "fetch('data:,').catch(() => 'refused')": "refused" });

await shows("a list among the files", () => dropAlone("document.body", "list"),
    { told: "list looks like a list: to check by it, choose it as a list." });
await shows("a list, and some of its files", async () => {
    await dropAlone("wanted", "list");
    await choose("(version.value = 5, seed.value = 0, files)", "big");
    await drop("document.body", "folder");
    await until("/in.x: OK/.test(lines.textContent)");
}, { verdict: "2 of 4 files are right", hint: "2 were not chosen.",
    problems: "a\\b c: in the list, but not chosen\nempty: in the list, but not chosen" });
await shows("the others, and one more", () => choose("files", "gone", odd, "empty"), {
    verdict: "1 of 4 files is not right", hint: "3 are right; 1 is not in the list.",
    problems: `empty: is ${sum}, should be ${wrongSum}\ngone: not in the list`,
    lines: komihashsum("--check", "list").replace(/^\.\/in/m, "folder/in") });
await shows("a list in UTF-16", () => dropAlone("wanted", "wide"), {
    told: "Now choose files.", said: "Now choose files.", doing: "Files never leave this device" });
await shows("its file", () => choose("files", "big"), { verdict: right, problems: "" });

await shows("a pasted hash", () => run(`wanted.value = "\\n ${komihashsum("big").slice(0, 16)} ",
    wanted.oninput({ inputType: "insertFromPaste" })`), { verdict: right, lines: "big: OK" });
await shows("typing", () => run("wanted.oninput({}), hidden = results.hidden"), { hidden: true });
await shows("after a pause", () => until("!results.hidden"), { verdict: right });
await shows("a wrong file", () => choose("files", "empty"), { verdict: "The file is not right",
    hint: "If the list has a version or seed, set it in Settings." });
await shows("the right one again", () => choose("files", "big"), { verdict: right, hint: "" });
await shows("no hash", () => run(`wanted.value = 0, wanted.oninput({}), hidden = results.hidden,
    wanted.onblur()`), { hidden: true, "wanted.ariaInvalid": true,
    told: 'This line needs a komihash (16 characters, 0-9 and a-f): "0". Correct or remove it.' });
await shows("typing after no hash", () => run("wanted.oninput({})"), { told: "" });

await shows("a file that changed after it was hashed", async () => {
    await choose("(wanted.value = '', files)", "empty");
    await until("hashing.hidden");
    writeFileSync("empty", "more");
    await run("version.onchange()");
}, { verdict: "1 of 2 files cannot be read", hint: "1 was hashed.", problems: `empty: ${lost}` });
writeFileSync("empty", "");
await shows("a long file, dropped as a list", () => dropAlone("wanted", "big"),
    { lines: komihashsum("big") });
await shows("the page's list", () => choose("(wanted.value = lines.textContent, files)", "empty"),
    { verdict: right, hint: "1 is not in the list.", "results.className": "right" });
await shows("a file chosen twice", () => choose("files", "empty"),
    { told: "empty was chosen before: what was chosen last counts." });
await shows("a chosen list", () => choose("lists", "list").then(
    () => until("/KOMIHASH/.test(wanted.value)")),
    { verdict: "1 of 4 files is not right", hint: "1 is right, 2 were not chosen." });
await shows("Clear while `huge` is hashed", () => choose("(wanted.value = '', files)", "huge").then(
    () => run("clearer.click()")), { problems: "", lines: "", "hashing.hidden": true });
await shows("an empty folder", () => drop("drop", "folder/none"),
    { doing: "No files were found there" });

console.log(`${steps} steps, ${failures} failures`);
process.exitCode = steps && !failures ? 0 : 1;
browser.kill();
