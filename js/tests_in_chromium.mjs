// Runs rows.html beside it, which is tests.html with rows, and prints its text: PROFILE, no folder.
import { open, run } from "./chromium.mjs";

const browser = await open(new URL("rows.html", import.meta.url), process.argv[2],
    "--allow-file-access-from-files");
console.log(await run("document.body.textContent"));
browser.kill();
