#!/usr/bin/env python3
"""Tests that inline.py refuses code that it doesn't know, with file, line and why: inline.py CRATE.
Each edit of the crate is one that C would take in another way, or not at all. Also tests that no
comment of the header speaks of Rust, or names a function that the header lacks."""
import re
import sys
from pathlib import Path

sys.dont_write_bytecode = True
sys.path.insert(0, str(Path(__file__).resolve().parent.parent))
from inline import header, sources_of  # noqa: E402

# Edits by why they are refused: the module, its text, and what it becomes.
EDITS = {
    "C may compute this as an int": [
        ("padding", "byte >= 128", "byte + 1 >= 128"), ("utils", "end << 32", "1 << 32"),
        ("padding", "byte >= 128", "byte >> 1 >= 64")],
    "no wrapping_add of u8 in C": [("padding", "byte >= 128", "byte.wrapping_add(1) >= 128")],
    "! of a number is another operator in C": [("padding", "(63 - shift)", "(!shift)")],
    "C chooses the order of evaluation": [
        ("generator", "let word = generator.step()",
         "let word = generator.step() ^ generator.step()"),
        ("generator", "new(self.s1, self.s2)", "new(self.step(), self.step())"),
        ("generator", "output = generator.step();",
         "output = if whole > 0 { generator.step() } else { 5 };"),
        ("generator", "    Komirand { s1, s2 }",
         "    let mut g = Komirand { s1, s2 };\n        Komirand { s1: g.step(), s2: g.step() }")],
    "a function that calls itself": [("generator", "low ^ s2 }", "low ^ self.step() }")],
    "parts of a choice aren't names": [
        ("whole_words", "(last_whole_word, final_word)", "(left[0] as u64, final_word)")],
    # C would assign to the other one.
    "a name that hides one of another type": [
        ("rounds", "    last.e ^ last.low\n}", "    let pair = last.low;\n    last.e ^ pair\n}")],
    "a name that hides another": [
        ("hash", "let rest: &[u8] = if", "let bytes: &[u8] = if"),
        ("rounds", "let (low, high)", "let (x, y) = (y, x);\n    let (low, high)")],
    "C reads this again, as a length or as where to end": [
        ("generator", "0..whole {", "0..whole {\n            whole = whole - 1;"),
        ("generator", "let output = generator.step();\n            write_partial_word(output",
         "let whole = generator.step();\n            write_partial_word(whole"),
        ("utils", "let n = bytes.len();", "let length = bytes.len(); let n = length;"),
        ("pending", "bytes[..bytes.len() % 64];", "bytes[..self.len];\n        self.len = 0;")],
    "not the next field of the struct": [
        ("rounds", "fourth: XoredPair { low: (", "third: XoredPair { low: (")],
    "two functions of this name": [
        ("pending", "WholeWords for Pending {", "WholeWords for Pending {\n    fn len() {\n    }")],
    "a stream that another function returns": [
        ("stream/streamed", "        StreamedKomihash {\n            pending: Pending",
         "        StreamedKomihash::other(seed)\n    }\n    const fn other(seed: u64) -> Self {\n"
         "        StreamedKomihash {\n            pending: Pending")],
    "C has it by hand, for the body in BY_HAND": [
        ("utils", "u64::from_le_bytes", "u64::from_be_bytes"), ("utils", "as u128", "as i128"),
        ("utils", "u32::from_le_bytes", "u64::from_le_bytes"),
        ("utils", "let piece = &bytes[at..]", "let piece = &bytes[at + 1..]")],
    "C has only a pointer to this": [("whole_words", "u64::from_le_bytes(words[at])",
                                      "let w = words[at]; u64::from_le_bytes(w)")],
    "unwrap of what is no chunk": [("padding", "(words)?;", "(words).unwrap();")],
    "a loop that isn't in 0..n": [("generator", "in 0..whole", "in (0..whole).rev()")],
    "unknown method": [
        ("padding", "= words[count - 1];", "= words.first_chunk::<1>().unwrap()[0];"),
        ("padding", "message[message.len() - 1]", "*message.last().unwrap()"),
        ("generator", "wrapping_add(high)", "saturating_add(high)")],
    "unknown": [
        ("pending", "[0; 8]", "[1; 8]"), ("pending", "chunks::<2>", "chunks::<4>"),
        ("utils", "let n = bytes.len();", "let n = match 1 { _ => 2 };"),
        ("utils", "n >= 4", "n as i32 >= 4"), ("rounds", "mix(a, e, e)", "mix(a, e, -1)"),
        ("generator", "0..whole", "0..=whole"), ("rounds", "while rest.len() >= 128", "loop"),
        ("utils", "end << 32", "unsafe { end }"),
        ("hash", "let pair = seed_pair(seed);", "let pair = || seed_pair(seed);"),
        ("hash", "let pair = seed_pair(seed);", "debug_assert!(seed > 0);"),
        ("stream/streamed", "self.had_block = true;", "self.had_block ^= true;"),
        ("pending", "len: usize,\n}", "len: u16,\n}"),
        ("hash", "#[inline(never)]", "#[inline(never)]\n#[cold]"),
        ("utils", "#[inline(always)]", '#[cfg(target_endian = "big")]')],
    "unknown item": [
        ("hash", "// One block", "static A: u8 = 0;\n// One block"),
        ("padding", "pub fn pad<", "pub unsafe fn pad<"),
        ("whole_words", "fn word(&self, at: usize)", "extern fn word(&self, at: usize)")],
}


def is_near(line, edited, new):
    """Whether the edit is at this line, or at most two lines away."""
    length = new.count("\n") + 3
    return new in "\n".join(edited.split("\n")[max(0, line - length):line + length - 1])


def main():
    sources = sources_of(sys.argv[1])
    text = header(sources)
    names, code = r"\bkomi_\w+", re.sub(r"/\*.*?\*/", "", text, flags=re.S)
    found = re.findall(r"\b(?:Rust|None|Debug|usize|V|crate|trait)\b", text)
    found += set(re.findall(names, text)) - set(re.findall(names, code))
    failed = len(found)
    for word in found:
        print(f"FAILED: a comment of the header has {word}")
    edits = [(why, *edit) for why, edits in EDITS.items() for edit in edits]
    for why, module, old, new in edits:
        path = f"{sys.argv[1]}/src/{module}.rs"
        edited = sources[path].replace(old, new)
        try:
            header(sources | {path: edited})
            told = "not refused" if old in sources[path] else "not found"
        except SystemExit as refusal:
            told = str(refusal)
        place = re.match(rf"{path}:(\d+): {re.escape(why)}\b", told)
        if not place or not is_near(int(place[1]), edited, new):
            failed += 1
            print(f"FAILED: {module}: {new}: {told}")
    print(f"{len(edits) + 1 - failed} passed, {failed} failed")
    sys.exit(failed > 0)


main()
