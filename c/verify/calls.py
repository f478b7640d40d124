"""Any call of a function that the header allows: its arrays and arguments, by its prototype and
what the header's first comment asks of pointers, lengths and overlap; and where the call is.

Trusted is that no call is left out that the header allows. A number of bytes is a number or a term
that stands for many, and each content is a symbol of its own."""
import collections
import os
import re
import z3
from definition import Products, State
from memory import Array
from terms import Unknown, bv, bytes_of, choose, const, part, secret, simple, sym

HEADER = os.path.join(os.path.dirname(os.path.abspath(__file__)), '..', 'komihash_rattle.h')
PROTOTYPE = r'(\w+)\s+{}\((.*?)\)'
# The bytes of an element of an array.
ELEMENTS = {'void': 1, 'uint64_t': 8}
# What a call returns, by name, and what it leaves: the state of a stream, a generator's pair, and
# the bytes that it writes to `out`.
Outcome = collections.namedtuple('Outcome', 'results state pair out', defaults=({}, None, (), ()))


def parameters(name):
    """The types and names of a function's parameters. A stream that is returned is one, too, where
    the caller says that it goes."""
    with open(HEADER) as file:
        result, listed = re.search(PROTOTYPE.format(name), file.read(), re.S).groups()
    returned = [f'{result} *stream'] if result.endswith('_stream') else []
    return [re.fullmatch(r'(.+?)(\w+)', one).groups() for one in returned + listed.split(', ')]


class Call:
    """A call of a function, before its first instruction or `where` some units of its bytes were
    taken: how many of UNIT bytes, how many bytes, and how many are left, if that is a number. Its
    bytes are those that are pending in its stream, which it takes first, and those that it is
    passed; `total` counts both. A step of the definition takes SIZE bytes. `which` is one of WHICH,
    the kinds of calls that are judged one by one.

    A subclass has the definition: its state before the first step, or any at a cut; that after a
    step; the words of a state; and what a call does then, if fewer bytes are left than for a step.
    """
    UNIT, SIZE, WHICH, HAS_PENDING, READS_STREAM, BY_CONTENTS = 8, 0, (None,), False, True, False
    # Calls of fewer than LEAST times GRAIN bytes are judged one by one. Of longer ones, the low
    # bits of their length are, of which FIXED_BITS already in the loop. Lengths are multiples of
    # STRIDE.
    GRAIN, LEAST, FIXED_BITS, STRIDE = 128, 1, 0, 1
    # The array whose bytes are counted, if there is one, and a kind of calls that have none.
    COUNTED, EMPTY = None, ()

    def __init__(self, image, name, total=bv(0), pending=bv(0), which=None, where=None):
        self.name, self.version = name, int(name[len('komihash_v')])
        self.products, self.layout = Products(), image.layout(self.version)
        self.cpu = image.processor(image, self.products)
        self.facts, self.memory = self.cpu.facts, self.cpu.memory
        self.total, self.pending, self.which, self.at_cut = total, pending, which, bool(where)
        self.length = simple(total - pending)
        self.units, self.taken, self.left = where or (*[simple(-pending)] * 2, const(total))
        self.state, self.args, self.sizes = None, {}, {}
        listed = parameters(name)
        for (kind, name), (_, count) in zip(listed, [*listed[1:], ('', '')]):
            self.args[name] = self.array(kind, name, count) if kind.endswith('*') else \
                self.number(name)
        args, self.returned = [*self.args.values()], None
        if self.name.endswith('_start'):
            first, self.returned = self.cpu.struct_at(args[0])
            args[:1] = first
        self.cpu.r.update(zip(self.cpu.ARGS, args))

    # What is passed

    def number(self, name):
        if name == 'length':
            return self.count()
        return sym('room') if name == 'room' else secret(name)

    def count(self):
        """The argument `length`."""
        return self.length

    def array(self, kind, name, count):
        """Passes an array or a struct. Null is only passed for an empty array, and after one there
        is an address. Returns its address."""
        element, base, writable = kind.split()[-2], sym(name), 'const' not in kind
        unit = ELEMENTS.get(element)
        if unit:
            number = self.number(count)
            size = simple(unit * number)
            self.facts.add(z3.ULE(number, (2**63 - 1) // unit))
        else:
            unit, size = 8, bv({'stream': self.layout.SIZE, 'rand': 16}[element.split('_')[-1]])
        self.sizes[name] = size
        self.facts.add(base & unit - 1 == 0, simple(z3.Or(size == 0, z3.ULT(size, -base))))
        if element not in ELEMENTS:
            self.memory.add(Array(base, size, [(name, bv(0), 0)], writable))
            self.fill(name)
        elif writable:
            self.pass_out(base, size)
        else:
            self.memory.add(Array(base, size, self.places(name), named=True))
        return base

    def is_number(self):
        """Whether the call has not begun, and its length is a number."""
        return self.left is not None and not self.at_cut

    def places(self, name):
        """Bytes of an array that is read are named by their number, or if their length isn't one,
        by how many come after what was taken, or before the end; of writes, before the end of the
        last block."""
        if self.is_number():
            return [(name, bv(0), 0)]
        end = simple((self.total & -self.GRAIN) - self.pending) if self.HAS_PENDING else self.length
        if self.left is not None:
            return [(f'{name} end', end, 0), (f'{name} end', self.taken, self.taken_at())]
        taken = self.taken if self.at_cut else bv(0)
        return [(f'{name} end', end, 0), (name, taken, 0)]

    def taken_at(self):
        """At the exit, the number of the first byte that is left."""
        after = const(simple(self.total & self.GRAIN - 1)) if self.HAS_PENDING else 0
        return after - self.left

    def pass_out(self, base, size):
        """Passes an array that is written. Only what an accepted call writes is there, for which
        there must be room. It doesn't overlap others: memory is such that none does, but where code
        compares their addresses, it also has to be a fact."""
        written, accepted, other = self.written(), self.accepted(), self.args.get(self.COUNTED)
        if self.at_cut:
            self.memory.add(Array(base, written, [('out', self.taken, 0)], True))
        elif not self.facts.holds([accepted], z3.ULE(written, size)):
            raise Unknown(f'{self.name}: what is written has no room')
        else:
            there = simple(z3.If(accepted, written, 0))
            self.memory.add(Array(base, there, [('out', bv(0), 0)], True))
        if other is not None:
            length = self.sizes[self.COUNTED]
            self.facts.add(z3.Implies(accepted, z3.Or(written == 0, length == 0, z3.And(
                z3.UGE(base - other, length), z3.UGE(other - base, written)))))

    def fill(self, name):
        """Gives a struct its content, if the function reads it. At a cut, what an invariant doesn't
        say of it may be anything."""
        if name == 'rand' and not self.at_cut:
            self.pair = secret('s1'), secret('s2')
            for k, byte in enumerate(bytes_of(z3.Concat(*reversed(self.pair)))):
                self.memory.put('rand', k, byte)
        elif name == 'stream' and self.READS_STREAM:
            self.layout.more_facts(self)
            if self.at_cut:
                return
            for k in range(self.layout.SIZE):
                self.memory.put(name, k, secret(f'unused[{k}]', 8))
            self.state = some_state(self.version, const(self.pending), self.which)
            self.layout.store(self, self.state)

    def check_possible(self):
        """Whether there is such a call, without which nothing would be shown."""
        if self.facts.model((), *self.facts.list) is None:
            raise Unknown(f'{self.name}: the conditions of a call contradict each other')

    # The definition

    def accepted(self):
        """Whether the call is accepted."""
        return z3.BoolVal(True)

    def refused(self):
        """The outcome of a call that isn't accepted."""
        return Outcome()

    def first(self):
        """The definition's state where the call is."""
        return []

    def words(self, steps):
        """The words of the definition's state after some steps."""
        return self.states[steps]

    def content(self, at, size):
        """Bytes of the call, from so many after those that were taken on."""
        return [self.byte(at + k) for k in range(size)]

    def byte(self, at):
        if self.state and at < const(self.pending):
            return self.state.pending[at]
        return self.memory.content(*self.place(at), 1)

    def place(self, at):
        """The name and number of a byte in memory."""
        if self.at_cut and self.left is not None:
            return f'{self.COUNTED} end', self.taken_at() + at
        return self.COUNTED, at if self.at_cut else at - const(self.pending)

    def follow(self, window):
        """Makes the steps of the definition: all, and what the call does then, if it is known how
        many bytes are left, and otherwise those that take `window` bytes. `made` counts products
        before the first step and after each."""
        count = (window if self.left is None else self.left) // self.SIZE if self.SIZE else 0
        self.states, self.made, self.out = [self.first()], [len(self.products.list)], []
        for k in range(count):
            self.states.append(self.step(self.states[k], k * self.SIZE))
            self.made.append(len(self.products.list))
        self.wanted = None if self.left is None else self.outcome(
            count, self.left - count * self.SIZE)

    # What the code does

    def check_products(self, end, count):
        """Whether just so many products were made, from the first on, and each once."""
        if end.halves != {(k, half) for k in range(count) for half in (0, 1)}:
            end.refuse(f'{len(end.halves) / 2:g} products, and not the {count} of the definition')

    def steps(self, end):
        """How many steps the code made, after checking all that they make."""
        if 'out' in self.args:
            steps = len(end.memory.written('out')) // self.SIZE
            end.check_bytes('bytes', 'out', self.out[:self.SIZE * steps])
        else:
            made = [count for count in self.made if 2 * count <= len(end.halves)]
            steps = max(len(made) - 1, 0)
        self.check_products(end, self.made[steps])
        return steps

    def judge(self, end):
        """Judges a return."""
        end.check_return()
        path, accepted = end.path, self.accepted()
        decided = end.facts.decide(path, accepted)
        for is_accepted in (True, False) if decided is None else (decided,):
            end.path = [*path, accepted if is_accepted else z3.Not(accepted)]
            if not is_accepted:
                self.check_products(end, 0)
                self.check(end, self.refused())
            elif self.wanted:
                self.check_products(end, len(self.products.list))
                self.check(end, self.wanted)
            else:
                self.judge_early(end)

    def judge_early(self, end):
        """Judges a return of a call of any length, which may come when all bytes are taken, if the
        definition then makes no more products."""
        steps, count = self.steps(end), len(self.products.list)
        if end.facts.holds(end.path, self.taken + steps * self.SIZE == self.length):
            wanted = self.outcome(steps, 0)
            if len(self.products.list) == count:
                return self.check(end, wanted)
        end.refuse('a return before the end')

    def check(self, end, wanted):
        """Whether a call returns and stores what it must."""
        for register, (name, term) in zip(end.RESULTS, wanted.results.items()):
            end.check(name, part(end.r[register], 0, term.size()), term)
        if wanted.state:
            self.layout.check(end, wanted.state)
        elif not self.READS_STREAM:
            end.check_bytes('refused', 'stream', [])
        for k, word in enumerate(wanted.pair):
            end.check(f's{k + 1}', end.memory.content('rand', 8 * k, 8), word)
        if 'out' in self.args:
            end.check_bytes('bytes', 'out', wanted.out)


def named(name, numbers):
    """Bytes with a name and a number each."""
    return [secret(f'{name}[{k}]', 8) for k in numbers]


def some_lanes(when=''):
    return [secret(f'lane s{k}{when}') for k in range(1, 9)]


def some_state(version, pending, had_block=None):
    """Any state with this number of pending bytes, and this flag or any."""
    had_block = flag_byte(sym('had_block', 1)) if had_block is None else bv(had_block, 8)
    top_bit = flag_byte(secret('top bit', 1)) if version == 4 else bv(0, 8)
    top_bit = simple(top_bit & had_block)
    return State(some_lanes(), named('pending', range(pending)), had_block, top_bit)


def flag_byte(bit):
    return choose(bit == 1, bv(1, 8), bv(0, 8))
