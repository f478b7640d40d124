// Prints a table of times of the package for JavaScript, of XXH64 as WebAssembly, which clang and
// wasm-ld make of Debian's libxxhash-dev, and of Node's MD5: node javascript.mjs > javascript.md
import { execFileSync } from "node:child_process";
import { createHash, hash as hashOf } from "node:crypto";
import { mkdtempSync, readFileSync, rmSync, writeFileSync } from "node:fs";
import { cpus, tmpdir } from "node:os";
import { gzipSync } from "node:zlib";
import { Komihash, komihash, komihashHex } from "../js/komihash_rattle.js";

const ROOM = 1 << 18, folder = mkdtempSync(`${tmpdir()}/xxh64-`);
for (const name of ["assert", "stdlib", "string"]) writeFileSync(`${folder}/${name}.h`,
    `typedef __SIZE_TYPE__ size_t; void *malloc(size_t); void free(void *);
     void *memcpy(void *, const void *, size_t), *memset(void *, int, size_t);`);
execFileSync("clang", ["--target=wasm32", "-O3", "-w", "-mbulk-memory", "-nostdlib", "-isystem",
    folder, "-Wl,--no-entry,--export-dynamic", "-fvisibility=default", "-o", `${folder}/xxh64`,
    "-xc", "-"], { input: `#define XXH_INLINE_ALL
     #include "/usr/include/xxhash.h"
     static XXH64_state_t state;
     static unsigned char piece[${ROOM}];
     void *address(void) { return piece; }
     void begin(unsigned long long seed) { XXH64_reset(&state, seed); }
     void take(size_t length) { XXH64_update(&state, piece, length); }
     unsigned long long finish(void) { return XXH64_digest(&state); }
     unsigned long long hash(size_t length, unsigned long long seed) {
         return XXH64(piece, length, seed);
     }` });
const module = new WebAssembly.Module(readFileSync(`${folder}/xxh64`));
rmSync(folder, { recursive: true });
const { memory, address, begin, take, finish, hash } = new WebAssembly.Instance(module).exports;
const piece = new Uint8Array(memory.buffer, address(), ROOM), encoder = new TextEncoder();

function xxh64(data) {
    const isText = typeof data === "string";
    if (isText && 3 * data.length <= ROOM)
        return BigInt.asUintN(64, hash(encoder.encodeInto(data, piece).written, 7n));
    if (!isText && data.length <= ROOM)
        return piece.set(data), BigInt.asUintN(64, hash(data.length, 7n));
    begin(7n);
    for (let at = 0, part, read, written; at < data.length; at += read) {
        if (isText) ({ read, written } = encoder.encodeInto(data.slice(at, at + ROOM), piece));
        else part = data.subarray(at, at + ROOM), piece.set(part), read = written = part.length;
        take(written);
    }
    return BigInt.asUintN(64, finish());
}
const bytes = (length) => Uint8Array.from({ length }, (_, at) => at ** 2 / 8);
const text = (length) => String.fromCharCode(...bytes(64).map((it) => it & 63 | 64)).repeat(
    length / 64 + 1).slice(0, length);
const hashes = (data, of, unit) => [`a hash of ${of}${data.length.toLocaleString("en")} ${unit}`,
    data.length, () => komihash(data, 7n), () => xxh64(data), () => hashOf("md5", data, "buffer")];
const block = bytes(64), stream = new Komihash(7n);
const rows = [
    ...[8, 64, 1000, 2 ** 20].map((it) => hashes(bytes(it), "", "bytes")),
    ...[16, 2 ** 20].map((it) => hashes(text(it), "a string of ", "letters")),
    ["the digits of a hash of 64 bytes", 64, () => komihashHex(block, 7n),
        () => xxh64(block).toString(16).padStart(16, "0"), () => hashOf("md5", block)],
    ["a new stream of 64 bytes, and its hash", 64, () => new Komihash(7n).update(block).digest(),
        () => { begin(7n); piece.set(block); take(64); return BigInt.asUintN(64, finish()); },
        () => createHash("md5").update(block).digest()],
    ["`reset` of a stream, or its begin", 64,
        () => stream.reset(), () => begin(7n), () => createHash("md5")],
];

// The least nanoseconds that each call takes, in batches of half a millisecond in turn.
const calls = rows.flatMap(([, , ...calls]) => calls);
const least = calls.map(() => Infinity), count = calls.map(() => 1);
for (let end = Date.now() + 60000; Date.now() < end;) calls.forEach((call, at) => {
    const start = performance.now();
    for (let k = 0; k < count[at]; k++) call();
    const took = performance.now() - start;
    if (took < 0.5) count[at] *= 2;
    else least[at] = Math.min(least[at], took / count[at] * 1e6);
});
const file = readFileSync(new URL("../js/komihash_rattle.js", import.meta.url));
const [size, packed] = [file, gzipSync(file)].map((it) => (it.length / 1000).toFixed());
console.log(`# The package for JavaScript beside others

Made by \`node javascript.mjs\`: ${cpus()[0].model}, Node ${process.versions.node}.
\`komihash_rattle.js\` has ${size} kB, which gzip packs into ${packed} kB.

| Call | komihash_rattle | XXH64 in WebAssembly | MD5 of Node |
|---|---:|---:|---:|`);
for (const [name, size] of rows) console.log(["", name, ...least.splice(0, 3).map((it) =>
    size < 1e4 ? `${it.toFixed()} ns` : `${(size / it).toFixed(2)} GB/s`), ""].join(" | ").trim());
