"""Checks libraries, and tells what was shown of them.

Trusted is that a function is right only if all cases of it ran and none failed, and that nothing
is claimed after an error."""
import argparse
import hashlib
import os
import sys
import capstone
import z3
from cases import NAMES, cases_again, cases_of, open_library, results, run_case
from elf import MEMORY
from layout import Ours
from progress import Progress
from terms import Unknown
from vectors import check_all_values, check_streams


def names_there(image, names, some):
    """Those of the names that the library has. A library of ours has all, and exports no others."""
    missing = [name for name in NAMES if name not in image.functions]
    others = sorted({*image.exported} - {*NAMES})
    if not some and (missing or others):
        raise Unknown(f'it lacks {missing} and also exports {others}')
    there = [name for name in names if name not in missing]
    if not there:
        raise Unknown('it exports none of the functions')
    if missing:
        print('Not there, so not checked:', *missing)
    if others:
        print('It also exports what is not checked:', *map(ascii, others))
    return there


def verify(level, path, args, layout):
    """Checks a library, and returns how many functions are right, and how many wrong."""
    failed, ran = {}, set()
    with open(path, 'rb') as file:
        content = file.read(MEMORY + 1)
    image = open_library(content, level, layout, args.red_zone)
    print(f'{path}: {image.processor.NAME}, for {level}, '
          f'red zone of {image.processor.RED_ZONE * args.red_zone} bytes, '
          f'SHA-256 {hashlib.sha256(content).hexdigest()}, '
          f'checked with capstone {capstone.__version__} and Z3 {z3.get_version_string()}')
    names = names_there(image, args.function, args.some)
    # Of a library with another layout, no calls are shown twice.
    again = [case for name in names for case in cases_again(name) if layout is Ours]
    cases = [*(case for name in names for case in cases_of(name)), *again]
    progress = Progress([*cases], args.jobs)
    # Those that take longest come first, so that no process is left with one at the end.
    cases.sort(key=lambda case: not case.has_loop())
    try:
        for done in results(args.jobs, run_case, cases):
            if isinstance(done.failure, Unknown):
                raise Unknown(f'{done.case}: {done.failure}')
            if done.failure is not None:
                failed.setdefault(done.case.name, f'{done.case}: {done.failure}')
            progress.add(done)
            ran.add(done.case)
    finally:
        progress.table({**failed})
    if not ran.issuperset(case for name in names for case in cases_of(name)) or \
            len(ran) != len(cases):
        raise Unknown(f'of {len(cases)} cases, some were not run')
    return len({*names} - {*failed}), len(failed)


def arguments(text):
    parser = argparse.ArgumentParser(prog='verify', description=text, usage=argparse.SUPPRESS)
    add = parser.add_argument
    add('--function', nargs='+', choices=NAMES, metavar='NAME', default=NAMES)
    add('--jobs', type=int, default=len(os.sched_getaffinity(0)))
    add('--some', action='store_true')
    add('--red-zone', action='store_true')
    add('library', nargs='+', metavar='LEVEL:LIBRARY')
    return parser.parse_args()


def main(text, layout=Ours):
    """Checks the libraries that the arguments name, and returns a status. Others may have streams
    in memory in another way."""
    args, path = arguments(text), 'the definition'
    try:
        check_all_values()
        check_streams(args.jobs)
        passed, failed = 1, 0
        for one in args.library:
            level, path = one.split(':', 1)
            right, wrong = verify(level, path, args, layout)
            passed, failed = passed + right, failed + wrong
    except (Exception, KeyboardInterrupt) as error:
        kind = '' if isinstance(error, (OSError, Unknown)) else f'{type(error).__name__}: '
        print(f'verify: nothing is claimed: {path}: {kind}{error}', file=sys.stderr)
        return 2
    print(f'{passed} passed, {failed} failed')
    return 1 if failed else 0
