#!/usr/bin/env python3
"""Tests what erase.py makes of sources that were written to mislead it."""
import sys
from pathlib import Path

sys.dont_write_bytecode = True
sys.path.insert(0, str(Path(__file__).resolve().parent.parent))
from erase import chosen, erase, traits_in  # noqa: E402

DECLARED = 'fn f(out: &mut [u8])\n        requires { 8 ≤ length out.old }'
TEST = ('#[track_caller]\nfn f(out: &mut [u8]) {\n'
        'assert!(8 <= out.len(), "the length of `out` is {}, and must be at least {}", '
        'out.len(), 8); }')
# What is erased, and Rust that is left. The comparison with rust/src shows the rest.
LEFT = {
    "fn f() -> char\n    ensures { c ≡ '{' }\n{ '{' }": "fn f() -> char { '{' }",
    '/// Is ghost.\nghost f = { a { b } c };\nfn f() {}': 'fn f() {}',
    '// Rattle alone.\nfn f() {}\nfn g() {}\n\nfn h() {}': 'fn h() {}',
    '// Inlined, but not in C.\n#[inline(never)]\nfn f() {}':
        '#[cfg_attr(any(debug_assertions, for_c), inline(never))]\n'
        '#[cfg_attr(not(any(debug_assertions, for_c)), inline)]\nfn f() {}',
    '    // In Rattle, a.\n/// In Rust, b, and in Rattle, c.\nfn f() {}':
        '/// In Rust, b, and in Rattle, c.\nfn f() {}',
    "fn f() { ['\\'', '\"'] } // \"\nfn g()\n    ensures { x }\n{ }":
        "fn f() { ['\\'', '\"'] } // \"\nfn g() { }",
    'fn f()\n    // {\n    ensures { x }\n    // y\n    ensures y { y }\n{ if !(a) { } }':
        'fn f() { if !(a) { } }',
    # One that is marked leaves the test to the function that it calls.
    f'/// x\n#[track_caller]\n#[inline]\npub {DECLARED}\n{{ }}\npub {DECLARED}\n{{ }}':
        '/// x\n#[track_caller]\n#[cfg_attr(debug_assertions, inline(never))]\n'
        '#[cfg_attr(not(debug_assertions), inline)]\npub fn f(out: &mut [u8]) { }\n'
        f'{TEST.replace("fn f", "pub fn f")}',
    'pub struct Komirand;\nimpl Komirand {\n    // For Rust: const, shared.\n    pub fn next() {}\n}':
        '#[derive(Debug, PartialEq, Eq)]\npub struct Komirand;\n'
        'impl Komirand {\n#[cfg_attr(debug_assertions, inline(never))]\n'
        'pub const fn next() {}\n}',
    '// For Rust: must_use.\n#[inline(always)]\nfn f() {}':
        '#[inline(always)]\n#[must_use]\nfn f() {}',
    # A condition of a public trait is tested in each impl.
    f'pub trait T {{\n    {DECLARED};\n}}\n'
    'impl<const V: u8> T\nfor S {\n    fn f(out: &mut [u8]) { }\n}':
        'pub trait T {\n#[track_caller]\nfn f(out: &mut [u8]) ;\n}\n'
        f'impl<const V: u8> T\nfor S {{\n{TEST}\n}}',
    'fn f() { let a = x;\n if a { } g(); }': 'fn f() { if x { } g(); }',
}
REFUSED = [
    '#[cfg(test)]\nfn f() {}', 'fn f() { unsafe { g() } }', 'fn f() { h(&mut Tally::new(), 1) }',
    'fn f() { r#"{"#; }', 'fn f() { /* { */ }', 'fn f() { g("a\nb") }',
    'ghost f = { a };fn f() { ghost() }', 'ghost f = { a }', 'ghost f = { a ', 'trait Model {}',
    'fn f() { x ≡ y }', 'pub fn f(out: &mut [u8])\n    requires { length out.old ≤ 8 }\n{ }',
    f'pub trait T {{\n    {DECLARED}\n    {{ }}\n}}',
    f'impl T\nfor S {{\n    {DECLARED}\n    {{ }}\n}}', 'pub  fn f() {}', 'pub async fn f() {}',
    'fn f(\n    fn (u8),\n) {}', 'fn f(g: fn(u8)) {}',
    'fn f() { (x, tally) }', 'impl Model for S {\n    fn f() {}\n}', 'ghost f = { ensures { x } };',
    'fn f() { std::mem::swap(a, b) }', 'pub trait T: Drop {}', 'fn f() {\n    fn g() {}\n}',
    'fn f() { panic !() }', "fn f() { 'a: loop { break 'a; } }", "fn f() { continue 'a }",
    '// For Rust: inline.\nfn f() {}', '// For Rust: const.\nstruct S;',
    'static A: u8 = 0;', 'extern crate a;', 'fn f() { rt; }', 'const fn f() { async { } }',
    'fn f() { while x invariant { y } { } }', 'fn f() { loop decreases { y } { } }',
]


def words(source):
    try:
        return erase(source + '\n', traits_in(chosen(source + '\n')[0])).split()
    except SystemExit as refusal:
        return f'refused: {refusal}'


failed = [source for source, left in LEFT.items() if words(source) != left.split()]
failed += [source for source in REFUSED if not isinstance(words(source), str)]
for source in failed:
    print(f'FAILED: {source!r} gives {words(source)}')
print(f'{len(LEFT) + len(REFUSED) - len(failed)} passed, {len(failed)} failed')
sys.exit(bool(failed))
