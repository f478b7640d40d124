// Opens a page in Chromium without a window, and talks to it by a pipe. A page may be slow: each
// wait is for a state, and none for a time.
import { spawn } from "node:child_process";

const waiting = [];
let to, sessionId;

/** Calls a method of Chromium's protocol, and returns its result. */
export const call = (method, params) => new Promise((then) => {
    const id = waiting.push(then) - 1;
    to.write(`${JSON.stringify({ id, method, params, sessionId })}\0`);
});
/** Returns what an expression gives, or undefined if it throws or another page comes meanwhile. */
export async function run(expression) {
    const { result, exceptionDetails } =
        await call("Runtime.evaluate", { expression, awaitPromise: true }) ?? {};
    return exceptionDetails ? undefined : result?.value ?? result?.objectId;
}
export const until = async (expression) => { while (!await run(expression)); };

/** Opens a page in a new profile, waits until it shows its body, and returns the browser. */
export async function open(url, profile, ...options) {
    const browser = spawn("chromium", ["--headless", "--no-sandbox", "--remote-debugging-pipe",
        `--user-data-dir=${profile}`, ...options],
        { stdio: ["ignore", "ignore", "ignore", "pipe", "pipe"] });
    let from, text = "";
    [to, from] = browser.stdio.slice(3);
    from.setEncoding("utf-8").on("data", (part) => {
        const messages = (text += part).split("\0");
        text = messages.pop();
        for (const { id, result } of messages.map((it) => JSON.parse(it))) waiting[id]?.(result);
    });
    const { targetId } = await call("Target.createTarget", { url });
    ({ sessionId } = await call("Target.attachToTarget", { targetId, flatten: true }));
    await until(`!document.body.hidden && document.readyState + document.URL === "complete${url}"`);
    return browser;
}
