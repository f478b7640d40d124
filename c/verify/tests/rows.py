"""Rows of the tests: a name, a reason, and what finds it. If the reason is None, it must find
nothing, and otherwise each part of the reason: `..` parts it, and `/` choices."""
import collections
import os
import sys
VERIFY = os.path.dirname(os.path.dirname(os.path.abspath(__file__)))
sys.path.insert(1, VERIFY)
import cases
from report import names_there
from terms import Unknown

# The compiler for ARM64, and what runs what it makes.
ARM = 'aarch64-linux-gnu-gcc', 'qemu-aarch64', '-L', '/usr/aarch64-linux-gnu'
Row = collections.namedtuple('Row', 'name reason find')
ROWS = []


def opened(content, level, red_zone=False):
    """A library of ours, of which no case was run yet."""
    image = cases.open_library(bytes(content), level, red_zone=red_zone)
    names_there(image, cases.NAMES, False)
    return image


def refusal(content, level, name, red_zone=False, among=''):
    """Why a library is refused, as far as those cases of a function show it that have `among` in
    their names; or None. Loops come first."""
    try:
        opened(content, level, red_zone)
    except Unknown as unknown:
        return f'{unknown}'
    some = [case for case in (*cases.cases_of(name), *cases.cases_again(name))
            if among in f'{case}']
    assert some, f'no case has {among} in its name'
    found = map(cases.run_case, sorted(some, key=lambda case: not case.has_loop()))
    return next((f'{done.case}: {done.failure}' for done in found if done.failure is not None),
                None)


def judge(row):
    """Whether a row finds what it must, and what it finds."""
    found = row.find()
    return found is None if row.reason == 'None' else all(
        any(one in f'{found}' for one in part.split('/')) for part in row.reason.split('..')), found


def judge_at(k):
    return ROWS[k].name, *judge(ROWS[k])


def count(rows):
    """Judges rows, or with ROW in the environment, those of this name. Prints what they find, and
    returns whether one fails."""
    ROWS[:] = [row for row in rows if os.environ.get('ROW', row.name) == row.name]
    passed = failed = 0
    for name, fits, found in cases.results(len(os.sched_getaffinity(0)), judge_at,
                                           range(len(ROWS))):
        passed, failed = passed + fits, failed + (not fits)
        print(f'{"ok" if fits else "FAILED"}: {name}: {found}', flush=True)
    print(f'{passed} passed, {failed} failed')
    return failed > 0 or not passed
