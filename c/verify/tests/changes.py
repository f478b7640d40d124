"""Asks which calls are shown, and changes the definition and what else a claim needs, after which
nothing may be claimed: changes.py x86-64:LIBRARY LEVEL:LIBRARY.. Of others than the first, only
long calls are judged."""
import contextlib
import functools
import hashlib
import io
import itertools
import re
import sys
from unittest import mock
from rows import Row, cases, count, refusal
import calls
import definition
import forms
import functions
import induction
import report
import second
import vectors
import z3
from calls import Call
from definition import Products, State
from terms import Unknown, bv, is_public, secret, sym

# By function, calls that must be shown: each of these conditions must hold of one.
CALLS = {
    'v4': 'bytes == 0; bytes == 1; And(length == 9, bytes == 2**64 - 10); length == 127; '
          'length == 128; length == 2**63 - 1; bytes + length == 2**64 - 1',
    'v4_start': 'stream == 2**64 - 152',
    'v4_rand_next': 'rand == 2**64 - 24; sp == 2**63 + 8; sp == 24; library == 2**12; '
                    'library == 2**63',
    'v4_write': 'And(pending == 63, length == 2**63 - 1); And(pending == 0, length == 64); '
                'And(pending == 63, length == 1); And(pending == 63, length == 0); '
                'And(pending == 5, length == 0, bytes == 0, top_bit == 1)',
    'v4_finish': 'stream == 8; had_block == 0; had_block == 1; top_bit == 1; pending == 63; '
                 'pending == 0',
    'v4_save': 'room == 0; room == 131; room == 2**63 - 1; out + 131 == stream',
    'v4_resume': 'And(length == 0, text == 0); length == 131; length == 132; length == 2**63 - 1',
    'v4_rand_fill': 'And(length == 0, out == 0); length == 2**63 - 1; out == 1',
    'v4_pad': 'And(length == 0, room == 1, bytes == out + 1); room == 2**60 - 1; '
              'And(length == 9, room == 1, bytes + 1 == out); '
              'And(length == 9, room == 2, bytes + 9 == out); '
              'And(length == 9, room == 2, bytes == 2**64 - 16); '
              'And(length == 9, room == 5, out + 16 == bytes)',
    'v4_unpad': 'length == 0; length == 2**60 - 1; And(length == 1, words == out); '
                'And(length == 2, room == 16, last == 2, index == 2, out + 14 == words + 4); '
                'And(length == 2, room == 16, last == 1, index == 1, out + 9 == words); '
                'And(length == 2, room == 15, last == 1, index == 2, out == words + 1); '
                'And(length == 1, room == 8, index == 0, last == 0, out == words + 1); '
                'And(length == 2, room == 16, last == 3, out == words + 1)'}

# How many cases there are of each function of a version.
CASES = [330, 1, 1, 2439, 128, 64, 133, 1, 1, 1, 1, 179, 323, 478]

# For hashes, pad, writes, fills and unpad, how many calls of loops are also run one by one, and the
# bytes, the pending ones and the kind of the first and the last.
AGAIN = "('', 130, (192, 0, None), (4095, 0, None)), ('_pad', 194, (128, 0, None), (4095, 0, " \
    "None)), ('_write', 358, (64, 0, None), (4158, 63, None)), ('_rand_fill', 50, (128, 0, None)," \
    " (4095, 0, None)), ('_unpad', 52, (128, 0, (0, 1)), (4088, 0, (7, 2)))"

# The arguments on which jumps may depend.
PUBLIC = ['bytes', 'length', 'out', 'rand', 'room', 'stream', 'text', 'words']

# The functions whose jumps may depend on contents.
BY_CONTENTS = [f'komihash_v{version}_{name}' for version in '45' for name in ('resume', 'unpad')]

# The first value and the last of one table, and the last of the other.
FIRST_AND_LAST = ('komihash', 4, '0', ''), ('komihash', 5, '0', '37206368617273'), \
    ('unpad', 5, '17f', '0')

# A sum of the header without its version: calls.py has its first comment in formulas, functions.py
# what its functions return, macros, and how large structs are.
STATED = '87d7d595a41c46f4'


def with_products(suffix, formula):
    """The table of functions, in which one makes other multiplications."""
    name = f'komihash_v4{suffix}'
    return cases, 'FUNCTIONS', {**cases.FUNCTIONS, name: (cases.kind_of(name), formula)}


def calls_of(content, level, name, at_cut=False):
    """The calls of a function before their first instruction, or those of loops at the head."""
    cases.open_library(content, level)
    for case in cases.cases_of(f'komihash_{name}'):
        proof = case.proof(cases.LIBRARY)
        if at_cut and case.has_loop() and proof.kind.SIZE:
            yield proof.at_head()
        if not at_cut:
            yield from (proof.long_call(bv(p)) for p in proof.pendings()) if case.has_loop() else [
                proof.call(bv(case.total), bv(case.pending))]


def missed(content, level, name, wanted):
    """Whether no call of a function that is shown has a condition."""
    for call in calls_of(content, level, name):
        given = {**call.args, **vars(call.state or State(())), 'pending': call.pending,
                 'And': z3.And, 'sp': sym('sp'), 'library': sym('library')}
        if isinstance(call.which, tuple):
            given.update(zip(('index', 'last'), map(bv, call.which or (0, 0))))
        if call.facts.model((), eval(wanted, given)) is not None:
            return None
    return 'no such call is shown'


def not_any(content, level):
    """The calls of which a seed, a lane, a word, a pending byte or a register of the caller is no
    secret symbol of its own, before the first instruction or at a cut, or a flag is known."""
    found = []
    for name, at_cut in itertools.product(cases.NAMES, (False, True)):
        for call in itertools.islice(calls_of(content, level, name[9:], at_cut), 200):
            state, cpu = call.state or State(()), call.cpu
            call.follow(0)
            terms = [*(call.words(0) if at_cut else [*state.lanes, *state.pending]),
                     *(call.pair if 'rand' in call.args and not at_cut else ()),
                     *(term for term in call.args.values() if not is_public(term)),
                     *(term for one, term in cpu.before.items() if one not in (cpu.SP, 'ssp') and
                       f'{term}' != 'return')]
            names = [f'{one}' for term in terms for one in term.children() or [term]]
            if len({*names}) < len(names) or not SECRET.issuperset(names) or cpu.flags or cpu.path:
                found.append(f'{name}, {at_cut}')
    return sorted({*found})


def public(content, level):
    """The arguments on which jumps may depend, of a call of each function."""
    found = set()
    for name in cases.NAMES:
        call = next(calls_of(content, level, name[9:]))
        found |= {one for one, term in call.args.items() if is_public(term)}
        cases.terms.SYMBOLS.secret.clear()
    return sorted(found)


def unstable(content, level):
    """What counts as the same at each arrival, and is not."""
    found = set()
    for suffix in ('', '_write', '_rand_fill', '_pad', '_unpad'):
        cases.open_library(content, level)
        proof = cases.cases_of(f'komihash_v5{suffix}')[1].proof(cases.LIBRARY)
        found |= {name for name in proof.stable(proof.at_head())
                  if not re.fullmatch(STABLE, name)}
    return sorted(found)


def sums():
    """Whether each sum and each half of a product of a call has a symbol of its own."""
    products = Products()
    halves = [half for k in range(40) for half in products.new(secret('one') + k, secret('two'))]
    symbols = halves + [products.symbol(a + b) for a, b in zip(halves, halves[1:])]
    return len({f'{one}' for one in symbols}) == len(symbols)


def other_factor(products, k):
    """Changes a factor of the last product."""
    products.append(tuple(-one if at == k else one for at, one in enumerate(products.pop())))


def with_more(module, name):
    return module, name, lambda products, *given, do=getattr(module, name): (
        products.new(bv(2), bv(3)), do(products, *given))[1]


# Calls that are long, in any case where they may be.
LONG = 'q == 2**50, units == 2**50, sp & 2**64 - 16 == 2**13, library == 2**12, bytes == 2**14, ' \
    'words == 2**14, out & 2**63 == 2**63, stream == 2**12, rand == 2**12'
SECRET = cases.terms.SYMBOLS.secret
# What means the same at each arrival of a call.
STABLE = r'[qr] of \d+ bits|library|return|sp|\w+ end\[-?\d+\]|\w+ of the caller|bytes|words|out|' \
    'room|rand|stream|seed'
LOOPS = [*((f'{k} modulo', '') for k in range(8)), ('any n', '_write'), ('any n', '_rand_fill'),
         ('any n', '_pad'), ('8, (7, 1)', '_unpad')]


def assume(proof, call, *place, do=induction.Proof.assume):
    """Puts a call into any state at a cut, which may be that of a long one."""
    do(proof, call, *place)
    names = {one: sym(one) for one in re.findall(r'(\w+) [&=]', LONG)}
    if call.facts.model((), *eval(LONG, {**names, 'q': proof.q})) is None:
        raise Unknown('no long call is in a state at a cut')


def end(proof, do=induction.Proof.end):
    """Shows what follows a loop, for each remainder."""
    shown, ended = [], set()
    proof.end_with = lambda *given: (shown.append(given), type(proof).end_with(proof, *given))
    with mock.patch.object(Call, 'judge', lambda call, cpu, do=Call.judge: (
            ended.add(shown[-1]), do(call, cpu))):
        do(proof)
    # Where some bytes are left, none is not.
    if len(shown) != proof.kind.GRAIN >> proof.kind.FIXED_BITS or any(
            rest and (remainder, rest) not in ended for remainder, rest in shown):
        raise Unknown(f'only {len(ended)} remainders are shown')


def counted(run):
    """How many cases of each function a run has."""
    with mock.patch.object(report, 'results', return_value=()) as given, \
            contextlib.suppress(Unknown):
        run()
    some = [case.name for case in given.call_args[0][2]]
    return [some.count(name) for name in cases.NAMES]


def stated():
    """A sum of the header without its version."""
    with open(calls.HEADER, encoding='utf-8') as file:
        text = re.sub(r'(VERSION\w*) ("[^"]*"|\d+)', r'\1', file.read())
    return hashlib.sha256(text.encode()).hexdigest()


def lengths():
    """The lengths for which streams are checked."""
    with mock.patch.object(vectors, 'results') as given:
        vectors.check_streams(1)
    return [*given.call_args[0][2]]


def printed(level, path, red_zone):
    """What is printed of a library, if it is not what must be."""
    with contextlib.redirect_stdout(io.StringIO()) as told:
        report.verify(level, path, mock.Mock(
            function=['komihash_v4_rand_next'], jobs=1, red_zone=red_zone, some=False), cases.Ours)
    with open(path, 'rb') as file:
        of_file = hashlib.sha256(file.read()).hexdigest()
    cpu, size = ('ARM64', 0) if level == 'armv8-a' else ('x86-64', 128 * red_zone)
    found = told.getvalue().partition(', checked with ')[0]
    wanted = f'{path}: {cpu}, for {level}, red zone of {size} bytes, SHA-256 {of_file}'
    return None if found == wanted else found


def long_calls(level, content):
    """Rows like those of `changes`, for a library of any level: whether long calls are shown, and
    all of them."""
    shown = mock.patch.multiple(induction.Proof, assume=assume, end=end)(refusal)
    for among, suffix in LOOPS:
        yield f'long calls of v4{suffix}, {among}, {level}', 'None', (), functools.partial(
            shown, content, level, f'komihash_v4{suffix}', among=among)


def check_definition():
    """Checks the definition, as each run does."""
    vectors.check_all_values()
    vectors.check_streams(1)


def of_calls(judge, content, level):
    """Calls that must be shown, and cases of none."""
    return [
        *((f'{name} with {one}', 'None', (), functools.partial(missed, content, level, name, one))
          for name in CALLS for one in CALLS[name].split('; ')),
        ('a call that is not shown', 'no such call', (), functools.partial(
            missed, content, level, 'v4_pad', 'And(length == 9, room == 2, bytes + 8 == out)')),
        ('a case of no calls', 'contradict', (Call, 'number', lambda call, name, do=Call.number: (
            call.facts.add(z3.BoolVal(False)), do(call, name))[1]), judge('v4', ', 9 bytes')),
        ('a turn that may take too much', 'in no array/more than all', (
            induction.Proof, 'conditions', lambda *given, do=induction.Proof.conditions: {
                name: cond for name, cond in do(*given).items() if name != 'not too much'}),
         judge('v4_rand_fill', 'any n')),
        ('a state of no calls', 'contradict', (functions.Rand, 'first', lambda call,
            do=functions.Rand.first: (call.facts.add(z3.BoolVal(not call.at_cut)), do(call))[1]),
         judge('v4_rand_fill', 'any n'))]


def of_products(judge):
    """Other multiplications."""
    return [
        *((f'{n} products', 'the definition has 1', with_products('_start', n),
           judge('v4_start', '')) for n in '02'),
        ('products of a short call', 'the definition has',
         with_products('_rand_fill', '(n+7)//8 + (n == 5)'), judge('v4_rand_fill', ', 5 bytes')),
        ('products of a long call', 'the definition has',
         with_products('_rand_fill', '(n+7)//8 + (n == 255)'), judge('v4_rand_fill', ', 255 b')),
        *((f'one more by {name}', 'products, and not the', with_more(definition, name),
           judge('v4', '0 modulo')) for name in ('block_round', 'hash_from_pair'))]


def of_cases(level, content, whole):
    """Cases that are not run, names, and what tables say."""
    return [
        *((f'{what} names', reason, (report, 'NAMES', names), lambda some=some: report.names_there(
            cases.open_library(content, level), [], some)) for what, reason, names, some in (
                ('fewer', 'also exports', cases.NAMES[1:], False),
                ('more', "lacks ['more']", [*cases.NAMES, 'more'], False),
                ('no', 'none of the functions', cases.NAMES, True))),
        ('fewer names than a library has', 'also exports', (report, 'NAMES', cases.NAMES[1:]),
         whole('komihash_v4_rand_next')),
        ('what is checked without options', f'{cases.NAMES}..some=False..red_zone=False',
         (sys, 'argv', ['verify', 'x86-64:library']), lambda: report.arguments('')),
        ('how many cases are run', f'{2 * CASES}', (), lambda: counted(whole(*cases.NAMES))),
        *((f'{what} that is not run', 'were not run', (report, 'results', lambda _, do, some, k=k: [
            cases.Done(one, None, 0, 0, 0) for at, one in enumerate(some) if at != k]),
           whole('komihash_v4_start', 'komihash_v5_save')) for what, k in (
               ('the first case', 0), ('one of some cases', 1), ('the last case', 64))),
        ('a case that is not run again', 'were not run', (report, 'results', lambda _, do, tasks: [
            cases.Done(one, None, 0, 0, 0) for one in tasks[:-1]]), whole('komihash_v4_pad')),
        ('what is stated of the header', STATED, (), stated),
        ('arguments that are public', f'{PUBLIC}', (cases.terms.SYMBOLS, 'secret', set()),
         lambda: public(content, level)),
        ('what may depend on contents', f'{BY_CONTENTS}', (), lambda: [
            name for name in cases.NAMES if cases.kind_of(name).BY_CONTENTS]),
        ('what is run again', AGAIN, (), lambda: [
            (suffix, len(some), *((one.total, one.pending, one.which)
                                  for one in (some[0], some[-1])))
            for suffix in cases.AGAIN for some in [cases.cases_again(f'komihash_v5{suffix}')]])]


def of_definition():
    """Another definition, and what it is compared with."""
    return [
        *((f'another hash of {n} bytes', f'for {n} bytes', (vectors, name, lambda products, version,
            *given, do=getattr(vectors, name), wrong=wrong: do(products, version, *given) + (
                version == wrong)), find) for n, name, wrong, find in (
                (0, 'komi', 4, lambda: vectors.check_streams(1)),
                (64, 'hash_from_lanes', 5, lambda: vectors.check_length(64)))),
        ('another hash of 127 bytes', 'for 127 bytes', (vectors, 'padded_words', lambda version, it,
            do=vectors.padded_words: do(version, it[len(it) == 127:])),
         lambda: vectors.check_streams(1)),
        ('bytes that are forgotten', 'for 20 bytes', (State, 'absorb', lambda state, *given,
            do=State.absorb: do(State(state.lanes, [], state.had_block, state.top_bit), *given)),
         lambda: vectors.check_length(20)),
        ('sums of a call are told apart', 'True', (), sums),
        *((f'another factor {k} of streams by {name}', 'for 0 bytes', (module, name,
            lambda *given, k=k, do=getattr(module, name): (do(*given), other_factor(
                next(one for one in given if isinstance(one, Products)).list, k))[0]),
           lambda: vectors.check_length(0)) for k in (0, 1)
          for module, name in ((vectors, 'start'), (State, 'answer'))),
        *((f'a form that varies as {name}', '{0: []}', (
            forms, 'forms_of', lambda *_, name=name, width=width: [sym(name, width)]),
           lambda: forms.Invariant(
               frozenset(), *[mock.Mock(words={0: 0}, holding=set())] * 2).forms)
          for name, width in (('turn[0]', 8), ('units', 64), ('length', 64),
                              ('low half of product 0', 64), ('undefined 1 of 64', 64))),
        ('a text of 65 bytes', 'True', (), lambda: vectors.resume(
            5, vectors.save(5, '0', '7f' * 65)) == vectors.komihash(5, '0', '7f' * 65)),
        *((f'other values than {n}', 'has 95 values', (vectors, 'ROWS', {'vectors.tsv': n}),
           check_definition) for n in (94, 96)),
        *((f'another value of {call}{row}', 'gives 4 ', (vectors, 'CALLS', {**vectors.CALLS, call:
            lambda *given, row=row, do=vectors.CALLS[call]: 4 if given == row else do(*given)}),
           check_definition) for call, *row in FIRST_AND_LAST for row in [tuple(row)]),
        *((f'another value of {call}', f'gives 4 ..for {call} [', (vectors, 'CALLS', {
            **vectors.CALLS, call: lambda *_: 4}), check_definition)
          for call in [*vectors.CALLS][1:]),
        ('the lengths of streams', f'{[*range(128)]}', (), lengths),
        ('the definition', 'None', (), check_definition),
        ('other words', 'gives none', (vectors, 'are_padded',
            lambda *_: z3.BoolVal(False)), check_definition)]


def of_errors(judge):
    """What ends all claims."""
    return [
        ('no solver', 'not answer', (cases.terms, 'SOLVERS', ()), judge('v4_rand_next', '')),
        *((f'a second solver that says "{said}"', reason, (second, 'subprocess', mock.Mock(
            run=lambda *_, said=said, **__: mock.Mock(stdout=said))),
           mock.patch.object(second, 'NAME', 'another')(judge('v4_save', ', 5 pending')))
          for said, reason in (('sat', 'Z3 answers unsat'), ('unsat', 'Z3 answers sat'),
                               ('unknown', 'does not answer'))),
        ('an error', 'Unknown(', (),
         lambda: repr(cases.run_case(cases.Case('komihash_v4_none', None, 0, 0, 0)).failure)),
        ('an error of Z3', 'a process ended', (), lambda: [*cases.results(1, z3.BitVecSort, [0])])]


def changes(level, path, content):
    """Each change: a name, a reason, a name that has another value, and what finds that then."""
    def judge(name, among):
        return lambda: refusal(content, level, f'komihash_{name}', among=among)

    def whole(*names):
        return lambda: report.verify(
            level, path, mock.Mock(function=names, jobs=4, red_zone=0, some=False), cases.Ours)
    return [*of_calls(judge, content, level), *of_products(judge),
            *of_cases(level, content, whole), *of_definition(), *of_errors(judge)]


def found(change, find):
    """What is found when a name has another value."""
    cases.terms.ANSWERS.clear()
    cases.terms.MODELS.clear()
    with mock.patch.object(*change or (cases, 'SECONDS', cases.SECONDS)):
        try:
            return find()
        except Unknown as unknown:
            return unknown


def rows(*libraries):
    for library in libraries:
        level, path = library.split(':', 1)
        with open(path, 'rb') as file:
            content = file.read()
        some = changes(level, path, content) if library == libraries[0] else ()
        for red_zone in (False, True):
            yield Row(f'what is printed, {level}, {red_zone}', 'None',
                      functools.partial(printed, level, path, red_zone))
        for name, find in (('what is not any', not_any),
                           ('what is not the same at each arrival', unstable)):
            yield Row(f'{name}, {level}', '[]', functools.partial(find, content, level))
        for name, reason, *change in (*some, *long_calls(level, content)):
            yield Row(name, reason, functools.partial(found, *change))


if __name__ == '__main__':
    sys.exit(count(rows(*sys.argv[1:])))
