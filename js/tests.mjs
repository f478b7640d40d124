// Tests the package in Node and in browsers: tests.mjs [FILE..]. A file has rows as in rust/tests,
// which are also read. Prints how many of their calls the package has, and then the rows and the
// other tests that fail.
import { Komihash, Komirand, komihash, komihashHex, v4, v5 } from "komihash_rattle";

const failed = [];
const test = (name, holds) => holds || failed.push(name);
function throws(error, call, text = "") {
    try { call(); }
    catch (it) { return it instanceof error && it.message.match(text) && !it.cause; }
}

const number = (digits) => BigInt(`0x${digits}`);
const pairs = (digits) => digits.match(/../g) ?? [];
const bytes = (digits) => new Uint8Array(pairs(digits).map((it) => parseInt(it, 16)));
const digits = (bytes) => Array.from(bytes, (it) => it.toString(16).padStart(2, "0")).join("");
const fills = (rand, of) => of.map((it) => digits(rand.fill(new Uint8Array(+it)))).join("");

/** Returns a hash, and if streams of two writes give others, these too. */
function hash(version, seed, message) {
    const cut = message.length / 3, [head, tail] = [message.slice(0, cut), message.slice(cut)];
    const stream = new version.Komihash(seed).update(head);
    const streams = [version.Komihash.resume(stream.save()), stream];
    const hashes = new Set(streams.map((it) => it.update(tail).hexdigest()));
    return [...hashes.add(version.komihashHex(message, seed))].join();
}
function value(call, it, [x, y, ...others]) {
    if (call === "save") return digits(new it.Komihash(number(x)).update(bytes(y)).save());
    const resume = () => it.Komihash.resume(bytes(x));
    if (call === "resume") return throws(RangeError, resume) ? "none" : resume().hexdigest();
    if (call === "new") return fills(it.Komirand.fromWords(number(x), number(y)), others);
    if (call === "init") return fills(new it.Komirand(number(x)), [y, ...others]);
    if (call !== "hasher" && call !== "komihash")
        return fills(new it.Komirand(number(x), number(y)), others);
    // A hasher takes each hash as the next seed.
    return [y, ...others].reduce((seed, message) => hash(it, number(seed), bytes(message)), x);
}

const page = globalThis.document?.body;
// @ts-ignore: these are no types of Node.
const [fs, process] = page ? [] : [await import("node:fs"), globalThis.process];
function read(files) {
    try { return files.map((it) => fs.readFileSync(it, "utf-8")).join(""); }
    catch (error) { console.error(error.message), process.exit(1); }
}
const table = (name) => new URL(`../rust/tests/${name}.tsv`, import.meta.url);
const files = page ? [] : [table("values"), table("vectors"), ...process.argv.slice(2)];
const rows = (page?.textContent ?? read(files)).match(/^(?!#|unpad).+/gm) ?? [];
test("more than 100 rows", rows.length > 100);
for (const row of rows) {
    const [, call, version, given, wanted] = row.match(/^(?:(\w\w+)\t)?([45])\t(.*)\t(.*)$/);
    test(row, value(call ?? "komihash", { 4: v4, 5: v5 }[version], given.split("\t")) === wanted);
}

const long = Uint8Array.from({ length: 1e6 }, (_, at) => at ** 2 / 8);
for (const size of [2 ** 18 - 1, 2 ** 18, 2 ** 18 + 1, 1e6])
    test("a message longer than pieces", !hash(v5, 7n, long.slice(0, size)).includes(","));
const Shared = globalThis.SharedArrayBuffer ?? ArrayBuffer; // which pages may lack
test("shared memory", komihash(new Shared(9)) === komihash(new Uint8Array(9)));
for (const text of ["", "aß€😀", "€".repeat(1e5), "€".repeat(2e5), `a${"😀".repeat(2e5)}\ud83d`])
    test("a string", komihash(text, 7n) === komihash(new TextEncoder().encode(text), 7n));
class Odd extends Uint8Array {
    byteLength = 3; length = 3; subarray = () => this; keys = () => { throw 0; };
}
/** Returns a Uint8Array of no subclass, which itself has these properties and a constructor. */
const own = (buffer, at, size) => Object.assign(
    Object.setPrototypeOf(new Odd(buffer, at, size), Uint8Array.prototype), { constructor: Array });
const views = [DataView, Odd].map((it) => new it(long.buffer, 8, 80));
for (const view of [...views, new Uint16Array(long.buffer, 8, 40), own(long.buffer, 8, 80)])
    test("a view", komihash(view) === komihash(long.buffer.slice(8, 88)));
for (const view of [new Odd(long.buffer), own(long.buffer)])
    test("a long view", komihash(view) === komihash(long));
/** @type {v5.Komirand} */
const highest = Komirand.fromWords(7n, 2n ** 64n - 1n);
const rand = new Komirand(7n), array = new BigUint64Array(1e5);
test("words", highest.words().join() === "7,18446744073709551615");
test("outputs", new Komirand(7n).fill(array).every((it) => it === rand.next()));
test("what is filled", komihash(new Komirand(7n).fill(own(8e5))) === komihash(array));
test("frozen names", Object.isFrozen(v4) && Object.isFrozen(v5));
// @ts-expect-error
/** @typedef {import("komihash_rattle").Stream<5>} Unnamed */
class Silent extends Komihash { digest() { return 0n; } }
test("digits of a subclass", new Silent().hexdigest() === komihashHex(""));

/** @type {((it: import("komihash_rattle").Seed) => unknown)[]} */
const seeded = [(it) => komihash("", it), (it) => new Komihash(it), (it) => new Komirand(it),
    (it) => new Komirand(0n, it), (it) => Komirand.fromWords(it, 0n),
    (it) => Komirand.fromWords(0n, it)];
for (const call of seeded) {
    for (const it of [-1, -1n, 2n ** 64n])
        test("a wrong seed", throws(RangeError, () => call(it), ` 2n [*]{2} 64n, and was ${it}n$`));
    for (const [kind, it] of Object.entries({
        null: null, 1.5: 1.5, "a string": "7", "an object Array": [7] })) // @ts-expect-error
        test("no seed", throws(TypeError, () => call(it), `^a .* a bigint.*, and was ${kind}$`));
    test("the highest seed", call(2n ** 64n - 1n) !== undefined);
}
test("a number as seed", new Komihash(2 ** 53 - 1).digest() === komihash("", 2n ** 53n - 1n));
const shrinking = Reflect.construct(ArrayBuffer, [16, { maxByteLength: 16 }]);
const lost = [DataView, Uint8Array].map((it) => new it(shrinking, 8, 8));
const whole = new Uint16Array(shrinking, 2), detached = new Uint8Array(8);
shrinking.resize(13), structuredClone(0, { transfer: [detached.buffer] });
test("a view that shrank", komihash(whole) === komihash(new Uint8Array(10)));
// @ts-ignore
const realm = globalThis.process && await import("node:vm");
for (const made of ["new Uint8Array(9)", "new DataView(new ArrayBuffer(9))", "new ArrayBuffer(9)"])
    test("another realm", !realm || komihash(realm.runInNewContext(made)) === komihash(own(9)));
const refusing = {
    "a message must be": komihash, "a saved stream must be": (it) => Komihash.resume(it),
    "a message must be a string,": (it) => new Komihash().update(it),
    "what is filled must be": (it) => new Komirand(7n).fill(it),
};
for (const [kind, it] of Object.entries({ 7: 7, null: null, "an object Array": [7],
    "a shrunk DataView": lost[0], "a shrunk Uint8Array": lost[1], "a detached Uint8Array": detached,
    "an object ArrayBuffer": { [Symbol.toStringTag]: "ArrayBuffer" } }))
    for (const [wanted, call] of Object.entries(refusing)) // @ts-expect-error
        test(wanted, throws(TypeError, () => call(it), `^${wanted}.* ArrayBuffer.* was ${kind}$`));
test("a wrong text", throws(RangeError, () => Komihash.resume(long)));
const saved = ["ä", "b"].map((it) => new Komihash().update(it).save());
const piped = Komihash.resume(saved[0]), sink = { write(part) { piped.update(part); } };
await new Blob(["b"]).stream().pipeTo(new WritableStream(sink));
test("saved texts, and a stream of a file", piped.digest() === v5.komihash("äb"));
const begun = new Komihash(7).update("a"), known = Komihash.resume(begun.save(), 7n);
for (const stream of [begun, known])
    test("a reset stream", stream.reset().update("b").hexdigest() === komihashHex("b", 7));
const copied = known.copy();
known.update("c");
test("a copy", copied.update("d").digest() === komihash("bd", 7));
test("the seed of a copy", copied.copy().reset().digest() === komihash("", 7));
// @ts-expect-error
test("a form of a digest", throws(TypeError, () => known.digest("hex"), "hexdigest"));
// @ts-expect-error
test("an encoding", throws(TypeError, () => known.update("ff", "hex"), "UTF-8"));
test("a hash in map", throws(TypeError, () => ["a"].map(komihashHex), "in map"));
const many = Array.from({ length: 200 }, (_, at) => new Komihash(at).update("a"));
test("many streams", many.every((it, at) => it.update("b").digest() === komihash("ab", at)));
const unknown = Komihash.resume(saved[0], undefined);
test("a stream without a seed", throws(TypeError, () => unknown.reset(), "pass the seed"));
test("it is unchanged", unknown.digest() === komihash("ä"));
test("versions", [v4, v5].map((it) => it.Komihash.resume(new it.Komihash().save()).version
    + it.Komirand.fromWords(0, 0).version) + "" === "8,10");
/** @type {v5.Komihash} */ // @ts-expect-error
const other = new v4.Komihash();
class Named extends Komihash {
    count = 0;
    constructor({ name }) { super(7n); this.name = name; }
    update(it) { this.count++; return super.update(it); }
}
const named = Named.resume(saved[0], { name: "a" }).update("b");
test("a subclass", named.count === 1 && named.name + named.digest() === `a${komihash("äb")}`);
test("its copy", named.copy({ name: "b" }).name === "b" && throws(TypeError, () => named.copy()));
class Sided extends Komirand {
    /** @param {number} sides @param {bigint} seed */
    constructor(sides, seed) { super(seed); this.sides = sides; }
}
const sided = Sided.fromWords(1n, 2n, 6, 7n), unsided = Komirand.fromWords(1n, 2n);
test("a subclass of a generator", sided.sides === 6 && sided.next() === unsided.next());
// @ts-expect-error
test("a subclass without its arguments", throws(TypeError, () => Sided.fromWords(1n, 2n)));

const told = [`${rows.length} rows, ${failed.length} failures`, ...failed].join("\n");
page ? Object.assign(page, { textContent: told, hidden: false }) : console.log(told);
if (failed.length && process) process.exitCode = 1;
