#!/usr/bin/env python3
"""Makes Rust of Rattle sources: erase.py SOURCE OUT.

Erased is what only the prover reads: contracts, ghost items, tallies, laws, tests, labels, and the
names of conditions that are tested once. A condition of a public function becomes a test, in each
impl of a public trait too; the prover has shown the others at each call. A function that has
`#[track_caller]` in the source leaves the test to one that it calls. The head of src/lib.rt says
which marks add what Rust has besides, and DERIVED which traits. What else is not Rust, this script
refuses.
"""
import re
import shutil
import subprocess
import sys
from itertools import count
from pathlib import Path

CHOICES = {r'^ *// Rattle alone\.\n(?:.+\n)+': '',
           r'^ *//[/!]? In Rattle, .*\n': '',
           r'^ *// Inlined, but not in C\.\n#\[inline\(never\)]': '#[inline(not_in_c)]',
           r'^ *// For Rust: (.*)\.$': r'‹+\1›'}
# What marks add before a function. Of those that are shared, debug builds have the one that was
# compiled with this crate, as of all that ask to be inlined: cargo may optimize this crate alone.
MARKS = {'shared': '#[cfg_attr(debug_assertions, inline(never))]\n', 'must_use': '#[must_use]\n'}
MARKED = re.compile(r'^‹\+(.*)›\n((?: *(?:#\[|‹/).*\n)*)( *(?:pub )?)(?=fn )', re.M)
DERIVED = dict.fromkeys(('Call', 'StreamedKomihash', 'Lanes', 'XoredPair', 'Pending'),
                        'PartialEq, Eq') | {
    'KomiHasher': 'Copy, Debug, PartialEq, Eq, Hash',
    **dict.fromkeys(('KomiBuildHasher', 'Komirand'), 'Debug, PartialEq, Eq')}
ADDED = {
    rf'^(?=pub(?:\(crate\))? (?:enum|struct) {name}\b)': f'#[derive({traits})]\n'
    for name, traits in DERIVED.items()} | {
    # src/version.rs has these compiled with this crate in debug builds. The library for C, which
    # has one copy of each, keeps the short hashes apart, where LLVM saves fewer registers.
    rf'^( *)#\[inline{mark}\]\n': rf'\1#[cfg_attr({here}, inline(never))]\n'
                                  rf'\1#[cfg_attr(not({here}), inline)]\n'
    for mark, here in {'': 'debug_assertions',
                       r'\(not_in_c\)': 'any(debug_assertions, for_c)'}.items()}
MADE = '// Made by rust/erase.py of crates/komihash/src, where changes belong.\n'
RUSTFMT = 'rustfmt', '--edition', '2024', '--config', 'use_small_heuristics=Max'
ONLY_RATTLE = 'laws', 'tally', 'tests'  # modules
BY_HAND = 'lib', 'version'  # modules that Rust has in a file of its own
# Comments and literals, which become ‹/N› and ‹sN›, so that no pattern sees what is in them.
HIDDEN = re.compile(r'''//[^\n]*|"(?:[^"\\\n]|\\.)*"|b?'(?:[^'\\\n]|\\.[^'\n]*)'(?!\w)''')
COMMENTS = r'(?:‹/\d+›\s*)*'
# The heads of functions, of traits, and of impls, which may be of a trait.
FUNCTION = re.compile(r'^ *(pub )?(?:pub\(crate\) )?(?:const )?fn (\w+)', re.M)
OWNER = re.compile(r'^(?:(pub )?(?:pub\(crate\) )?trait (\w+)|'
                   r'impl\b(?:[^{;]*?(\w+)(?:<[^<>{;]*>)?\s+for\b)?)', re.M)
CLAUSE = re.compile(rf',?\n *{COMMENTS}(requires|ensures)(?: \w+)? \Z')
DELEGATES = re.compile(r'#\[track_caller\]\s*(?:(?:#\[.*\]|‹/\d+›)\s*)*\Z')
CONDITION = re.compile(r'\{ ((?:length \w+\.\w+|[A-Z_]+|\d+|[ +*/])+) ≤ length (\w+)\.old \}')
# Lines that only the prover reads, and what Rust spells in another way.
LINES = (r'ghost use [^;]*;', r'#!?\[tactic\(.*\)\]', r'tally\.raise\([^;]*\);',
         r'use std::marker::(?:Model|\{Model, PhantomData\});', r'use crate::tally::Tally;')
TALLY = re.compile(r'(?:(?<=\()|,\s*)(?:tally(?:: &mut Tally)?|&mut Tally::new\(\))(?=,?\s*\))')
SPELLED = {'#[derive(Drop)]': '#[derive(Clone)]', 'use std::': 'use core::',
           'pub trait KomiStream: Sized + Drop': 'pub trait KomiStream: Sized'}
NAMED = re.compile(r'let (\w+) = ([^;{}]*);\n *((?:let \w+(?:: \w+)? = |return )?if )\1 (?=\{)')
ATTRIBUTES = re.compile(r'#!?\[([^]]*)\]'), re.compile('|'.join((
    r'inline(\((always|never|not_in_c)\))?', 'track_caller', r'repr\((C|transparent)\)',
    r'derive\((Clone|Clone, Copy)\)', r'allow\([\w:, ]+\)')))
MACROS = (re.compile(r'\b(?!(?:if|while|match|return|in)\b)(\w+)\s*!(?!=)'),
          re.compile('assert|unreachable'))
# What may not be left.
NO_RUST = re.compile(r'\b(?:ghost|requires|ensures|decreases|invariant|tally|Tally|Model|Drop|'
                     r'prove|unsafe|rt|std|static|extern|async|macro_rules|no_mangle|export_name)\b|'
                     r"(?:break|continue)\s+'|[^\x00-\x7f‹›]|\"")
COUNTED = re.compile(r'\b(?:fn|requires|ensures)\b')


def refuse(why, text, at=0):
    raise SystemExit(f'{why}: {text[max(0, at - 60):at + 60]!r}')


def end_of(text, at):
    """The index after the brace that closes the one at `at`."""
    depth = 0
    for k in range(at, len(text)):
        depth += {'{': 1, '}': -1}.get(text[k], 0)
        if not depth:
            return k + 1
    refuse('a brace that nothing closes', text, at)


def cut(text, head, tail):
    """Cuts what begins with a head, whose last character is a brace, and ends with a tail."""
    while match := re.search(head, text, re.M):
        end = end_of(text, match.end() - 1)
        end = (re.compile(tail).match(text, end) or refuse('an unknown end', text, end)).end()
        text = text[:match.start()] + text[end:]
    return text


def contract(text, at):
    """The ranges of a function's clauses after `at`, the index of its body, and its conditions."""
    clauses, conditions, depth = [], [], 0
    while at < len(text):
        depth += {'(': 1, '[': 1, ')': -1, ']': -1}.get(text[at], 0)
        if depth or text[at] not in '{;':
            at += 1
        elif clause := CLAUSE.search(text, clauses[-1][1] if clauses else 0, at):
            clauses.append((clause.start(), end_of(text, at)))
            conditions += [text[at:clauses[-1][1]]] * (clause[1] == 'requires')
            at = clauses[-1][1]
        else:
            return clauses, at, conditions
    refuse('no body', text)


def functions(text):
    """Each function's head, the trait or impl that it stands in, and its contract."""
    end = 0
    for it in re.finditer(r'\b(?:fn|(impl|trait))\b', text):
        start = text.rfind('\n', 0, it.start()) + 1
        head = (OWNER if it[1] else FUNCTION).match(text, start)
        if not head or head.end() < it.end():
            refuse('an unknown head', text, start)
        if it[1]:
            owner = head
        else:
            clauses, body, conditions = contract(text, head.end())
            if start < end:
                refuse('a function in a function', text, start)
            end = end_of(text, body)
            yield head, head[0].startswith(' ') and owner, (clauses, body, conditions)


def test_of(condition):
    """A test of the condition that a slice is long enough, which is the only one that is known."""
    known = CONDITION.fullmatch(condition) or refuse('an unknown condition', condition)
    least = re.sub(r'length (\w+)\.\w+', r'\1.len()', known[1])
    return f'\nassert!({least} <= {known[2]}.len(), ‹m{known[2]}›, {known[2]}.len(), {least});'


def traits_in(text):
    """The conditions of the functions of public traits, by the names of both."""
    return {(owner[2], head[2]): conditions for head, owner, (_, _, conditions) in functions(text)
            if owner and owner[1]}


def without_contracts(text, traits):
    """Cuts contracts. Public functions test their conditions, and panic at their caller's line."""
    parts, done = [], 0
    for head, owner, (clauses, body, conditions) in functions(text):
        if conditions and owner and (owner[2] or owner[3]) and text[body] == '{':
            refuse('a condition that nobody tests', text, head.start())
        if not head[1] and not (owner and owner[1]):
            conditions = owner and traits.get((owner[3], head[2])) or []
        if DELEGATES.search(text, done, head.start()):
            conditions = []
        parts += [text[done:head.start()], '#[track_caller]\n' * bool(conditions)]
        done = head.start()
        for start, end in [*clauses, (body, body)]:
            parts.append(text[done:start])
            done = end
        parts[-1] = re.sub(r'^,?\s*', '\n', parts[-1]) if clauses else parts[-1]
        if text[body] == '{':
            parts += ['{', *map(test_of, conditions)]
            done = body + 1
    return ''.join(parts) + text[done:]


def without_tallies(text):
    """Cuts tallies where functions take them, and where they are passed."""
    for it in reversed([*TALLY.finditer(text)]):
        depth, at = 1, it.start() + (it[0][0] != ',')
        while depth and (at := at - 1) >= 0:
            depth += {'(': -1, ')': 1}.get(text[at], 0)
        if re.fullmatch(r'[\w>]', text[at - 1:at]):
            text = text[:it.start()] + text[it.end():]
    return text


def with_marks(text):
    """Puts before functions, and into their heads, what marks say that Rust has."""
    def marked(it):
        marks = it[1].split(', ')
        if not {*marks} <= {'const', *MARKS}:
            refuse('an unknown mark', text, it.start())
        added = ''.join(MARKS[mark] for mark in MARKS if mark in marks)
        return it[2] + added + it[3] + 'const ' * ('const' in marks)
    text = MARKED.sub(marked, text)
    return text if '‹+' not in text else refuse('a mark of no function', text, text.index('‹+'))


def without_names(text):
    """Puts conditions that have a name for the prover alone where they are tested."""
    for it in reversed([*NAMED.finditer(text)]):
        after = re.split(r'^ *(?:pub )?fn ', text[it.end():], maxsplit=1, flags=re.M)[0]
        if not re.search(rf'\b{it[1]}\b', after):
            text = text[:it.start()] + it[3] + it[2] + ' ' + text[it.end():]
    return text


def chosen(text):
    """What Rust has of a source by its comments, and what is hidden in it."""
    if odd := re.search(r'\br#*"|/\*|‹', text):
        refuse('a raw string, a comment in stars, or a bracket', text, odd.start())
    for written, choice in CHOICES.items():
        text = re.sub(written, choice, text, flags=re.M)
    hidden, number = HIDDEN.findall(text), count()
    text = HIDDEN.sub(lambda it: f'‹{"/" if it[0][0] == "/" else "s"}{next(number)}›', text)
    left = cut(text, r'^impl(?:<[^>]*>)? Model for [^{]*\{', r'\n*')
    left = cut(left, rf'{COMMENTS}(?:pub )?ghost \w+(?: =|:) \{{', r'[;,]\s*')
    if COUNTED.findall(text) != COUNTED.findall(left):
        refuse('a ghost item that has a function or a clause', text)
    return left, hidden


def erase(text, traits):
    """Makes Rust of a source. The conditions of all public traits are given."""
    text, hidden = chosen(text)
    text = without_contracts(text, traits)
    text = re.sub(rf'^ *(?:{"|".join(LINES)})\n', '', text, flags=re.M)
    text = without_names(without_tallies(text))
    for ours, theirs in SPELLED.items():
        text = text.replace(ours, theirs)
    text = re.sub(r"'\w+: (?=(?:for|while|loop) )", '', text)
    for found, known in ATTRIBUTES, MACROS:
        for it in found.finditer(text):
            known.fullmatch(it[1]) or refuse('an unknown attribute or macro', text, it.start())
    for it in NO_RUST.finditer(text):
        refuse('a word that is no Rust', text, it.start())
    text = with_marks(text)
    for place, addition in ADDED.items():
        text = re.sub(place, addition, text, flags=re.M)
    text = re.sub(r'‹m(\w+)›', r'"the length of `\1` is {}, and must be at least {}"', text)
    # In examples, the crate has its name in Rust.
    hidden = [re.sub(r'\bkomihash::(?=[\w{])', 'komihash_rattle::', it) for it in hidden]
    return re.sub(r'‹.(\d+)›', lambda it: hidden[int(it[1])], text)


def main(source, out):
    shutil.which(RUSTFMT[0]) or refuse('this program is missing', RUSTFMT[0])
    files = [file.relative_to(source) for file in source.rglob('*.rt')]
    texts = {file: (source / file).read_text('utf-8') for file in files
             if file.parts[0].removesuffix('.rt') not in (*ONLY_RATTLE, *BY_HAND)}
    codes = [chosen(text)[0] for text in texts.values()]
    for place in ADDED:
        any(re.search(place, code, re.M) for code in codes) or refuse('nothing has', place)
    traits = {}
    for code in codes:
        traits |= traits_in(code)
    for file, text in texts.items():
        made = (out / file).with_suffix('.rs')
        made.parent.mkdir(parents=True, exist_ok=True)
        made.write_text(MADE + erase(text, traits), 'utf-8')
    subprocess.run([*RUSTFMT, *out.rglob('*.rs')], check=True)


if __name__ == '__main__':
    main(*map(Path, sys.argv[1:]))
