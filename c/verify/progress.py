"""Tells what was done of each function. Nothing here needs trust."""
import collections
import time
import second
from functions import FUNCTIONS


class Progress:
    """What was done of the cases, told as it goes."""

    def __init__(self, cases, jobs):
        self.jobs, self.begin, self.told = jobs, time.time(), time.time()
        self.all = collections.Counter(case.name for case in cases)
        self.done = collections.defaultdict(list)

    def add(self, done):
        name = done.case.name
        self.done[name].append(done)
        if len(self.done[name]) == self.all[name] or time.time() > self.told + 10:
            self.told = time.time()
            print(f'{name}: {len(self.done[name])} of {self.all[name]} cases, '
                  f'{self.total("seconds", name):.0f} s; in all '
                  f'{sum(map(len, self.done.values()))} of {sum(self.all.values())}', flush=True)

    def total(self, field, *names):
        return sum(getattr(done, field) for name in names or self.done for done in self.done[name])

    def table(self, failed):
        row = '{:37} {:>5} {:>24} {:>17} {:>5} {:>7}'.format
        print(row('function', 'cases', 'multiplications', 'jumps by contents', 'stack', 'seconds'))
        for name, count in sorted(self.all.items()):
            if name in failed:
                print(f'FAILED: {failed[name]}')
            elif len(self.done[name]) < count:
                print(f'{name:37} {len(self.done[name]):>5} of {count}, and no more')
            else:
                kind, products = FUNCTIONS[name]
                print(row(name, count, products, 'yes' if kind.BY_CONTENTS else 'no',
                          max(done.depth for done in self.done[name]),
                          f'{self.total("seconds", name):.0f}'))
        print(f'{self.total("asked")} questions to Z3{second.NAME and f" and {second.NAME}"}; '
              f'{time.time() - self.begin:.0f} seconds, {self.jobs} processes')
