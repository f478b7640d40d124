"""The cases of each function, how one is checked, and the processes that work on them."""
import collections
import multiprocessing
import signal
import time
from concurrent.futures import BrokenExecutor, ProcessPoolExecutor, as_completed
import terms
from functions import FUNCTIONS
from image import Image
from induction import Proof
from layout import Ours
from terms import Refused, Unknown

# What is checked, and the limit of time of a case.
LIBRARY, SECONDS = None, 600
# Long calls that are also shown one by one, since the induction isn't believed alone: lengths below
# the first and the others, if this holds for n bytes and p pending. Of writes, they are each
# length, each sum with the pending bytes, and with each number of these, one to four blocks.
LONGEST, MORE = 320, (1000, 4095)
AGAIN = {
    '': lambda n, p, _: True, '_pad': lambda n, p, _: True,
    '_write': lambda n, p, _: p + n == 64 or (2 * p + n) % 63 == 0,
    '_rand_fill': lambda n, p, _: n % 8 in (0, 7),
    '_unpad': lambda n, p, which: which in ((n // 8 % 8, 1), (n // 8 % 8, 2))}
NAMES = [*FUNCTIONS]


class Case(collections.namedtuple('Case', 'name which low total pending')):
    """Calls of one length, or if `total` is None, of any that isn't judged by itself, and has these
    low bits."""

    def __str__(self):
        kind, told = kind_of(self.name), [self.name]
        if self.has_loop():
            told.append(f'any n, {self.low} modulo {2**kind.FIXED_BITS}')
        else:
            told += [f'{self.total - self.pending} bytes'] * bool(kind.COUNTED)
            told += [f'{self.pending} pending'] * kind.HAS_PENDING
        return ', '.join([*told, f'{self.which}'][:None if self.which is not None else -1])

    def has_loop(self):
        return self.total is None

    def proof(self, image):
        return Proof(image, self.name, kind_of(self.name), self.which, self.low)

    def run(self, image):
        """Checks the case, and returns what was seen."""
        proof = self.proof(image)
        if self.has_loop():
            proof.prove()
            return proof.seen
        count, (_, products) = proof.number(self.total, self.pending), FUNCTIONS[self.name]
        if count != eval(products, {'n': self.total - self.pending, 'p': self.pending}):
            raise Refused(f'the definition has {count} products')
        return proof.seen


# What a case gave: why it failed, or how deep the stack was; and how much was asked.
Done = collections.namedtuple('Done', 'case failure seconds depth asked')


def kind_of(name):
    return FUNCTIONS[name][0]


def cases_of(name):
    """All calls: those of any length, and those of fewer bytes."""
    kind = kind_of(name)
    if not kind.COUNTED:
        return listed(name, lambda n, p, _: n == 0, [0])
    return [*(Case(name, which, low, None, 0) for which in kind.WHICH
              for low in range(0, 2**kind.FIXED_BITS, kind.STRIDE)),
            *listed(name, lambda n, p, _: n + p < kind.GRAIN * kind.LEAST),
            *(Case(name, which, 0, 0, 0) for which in kind.EMPTY)]


def cases_again(name):
    kind = kind_of(name)
    return listed(name, lambda n, p, which: n + p >= kind.GRAIN * kind.LEAST and AGAIN.get(
        name[len('komihash_v4'):], lambda *_: False)(n, p, which), (*range(LONGEST), *MORE))


def listed(name, wanted, numbers=range(LONGEST)):
    """The cases of some numbers of bytes and each number of pending ones, if they are wanted."""
    kind = kind_of(name)
    each = sorted({n // kind.STRIDE * kind.STRIDE for n in numbers})
    return [Case(name, which, 0, n + p, p) for p in range(64 if kind.HAS_PENDING else 1)
            for n in each for which in kind.WHICH if wanted(n, p, which)]


def open_library(content, level, layout=Ours, red_zone=False):
    """Reads the library that `run_case` checks, also in workers that begin after this."""
    global LIBRARY
    LIBRARY = Image(content, level, NAMES, layout, red_zone)
    return LIBRARY


def give_up(*_):
    raise Unknown(f'no answer within {SECONDS} seconds of processor time')


def run_case(case):
    """Checks a case. Nothing may be claimed after an error of this program, either."""
    signal.signal(signal.SIGPROF, give_up)
    signal.setitimer(signal.ITIMER_PROF, SECONDS, 1)
    terms.ASKED[0] = 0
    begin, depth, failure = time.process_time(), 0, None
    try:
        seen = case.run(LIBRARY)
        depth = seen.depth
        if seen.by_contents and not kind_of(case.name).BY_CONTENTS:
            failure = f'a jump or an address depends on {sorted(seen.by_contents)[0]}'
    except Unknown as unknown:
        failure = unknown
    except Refused as refused:
        failure = f'{refused}'
    except Exception as error:
        failure = Unknown(f'{type(error).__name__}: {error}')
    signal.setitimer(signal.ITIMER_PROF, 0)
    return Done(case, failure, time.process_time() - begin, depth, terms.ASKED[0])


def results(jobs, do, tasks):
    """What a function returns for each task, in any order. The processes are forks, so they know
    what this one has read. An interrupt ends them with this one."""
    with ProcessPoolExecutor(jobs, multiprocessing.get_context('fork'), signal.signal,
                             (signal.SIGINT, signal.SIG_IGN)) as pool:
        try:
            yield from (one.result() for one in as_completed(pool.submit(do, t) for t in tasks))
        except BrokenExecutor:
            raise Unknown('a process ended, perhaps because memory ran out') from None
        finally:
            for process in multiprocessing.active_children():
                process.terminate()
