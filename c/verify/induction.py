"""Shows what the calls of a function do, also of any length, by induction over the turns of a loop.

If calls have a loop, their code is cut at two places: the head of the loop, and its exit, the first
place after the loop. Each has an invariant (forms.py), which speaks of how much was taken of the
bytes so far. Code is run with symbols from one place to the next cut or return, always by `go`:

1. From a call's first instruction, whatever arrives has the invariant of where it arrives.
2. From any state that has the head's invariant, too. If it arrives at the head again, it took some
   bytes on the way.
3. From any state that has the exit's invariant, the call returns, and comes to no cut again.

On each way, what was multiplied and written must be what the definition has next, and at a return,
what is returned and stored. So by induction over its arrivals, each call has the right state at
each of them, and what it returns is right too. It does return, since each turn takes some bytes,
and the invariant says that no more are taken than there are.

The cuts and the invariants are found by trying, and how doesn't matter: if they are wrong or too
weak, one of the three ways fails.

Lengths are GRAIN * q + r, with q at least LEAST, which stays a symbol. In the first two ways, so
does r; in the third, each r is run by itself, so that the number of bytes after the loop is known.
A call whose length is a number has no cuts, and goes from its first instruction to its return."""
import z3
from forms import Arrival, Invariant, World
from guesses import arrivals, cuts
from machine import LOADED, Seen
from terms import Refused, bv, put_for, secret, simple, sym, symbols

# Before the head, so many bytes may be taken.
WINDOW = 512
# A number of pending bytes for which invariants are guessed: more than none, so that the call does
# before its loop all that it can do there.
SOME_PENDING = 13


class Proof:
    """Calls of a function, of one kind of `which`, and with these low bits of their length."""

    def __init__(self, image, name, kind, which=None, fixed=0):
        self.image, self.name, self.kind, self.which, self.fixed = image, name, kind, which, fixed
        self.invariants, self.seen, self.head, self.exit = {}, Seen(), None, None
        self.step, self.entry = WINDOW, image.functions[name]
        bits = kind.GRAIN.bit_length() - 1
        self.q, self.r = (sym(f'{name} of {size} bits', size) for name, size in (
            ('q', 64 - bits), ('r', bits - kind.FIXED_BITS)))

    # Calls

    def call(self, total, pending=bv(0), where=None):
        call = self.kind(self.image, self.name, total, pending, self.which, where)
        call.cpu.seen = self.seen
        self.seen.order.clear()
        return call

    def total(self, rest=None):
        """GRAIN * q + r, which is the bits of q and r side by side."""
        low = [bv(self.fixed, self.kind.FIXED_BITS)] if self.kind.FIXED_BITS else []
        rest = [self.r, *low] if rest is None else [bv(rest, 64 - self.q.size())]
        return simple(z3.Concat(self.q, *rest))

    def long_call(self, pending, where=None, total=None):
        """A call of any length, or with the remainder that this has."""
        call = self.call(self.total() if total is None else total, pending, where)
        call.facts.add(z3.UGE(self.q, self.kind.LEAST))
        return call

    def any_pending(self):
        return z3.ZeroExt(58, sym('pending', 6)) if self.kind.HAS_PENDING else bv(0)

    def pendings(self):
        """Each number of pending bytes. First come some that drop what doesn't hold of all."""
        each = range(64) if self.kind.HAS_PENDING else [0]
        return sorted(each, key=lambda k: k not in (SOME_PENDING, SOME_PENDING + 1))

    # What is shown

    def number(self, total, pending):
        """Shows a call of which it is known how many bytes it takes. Returns how many products the
        definition makes of them."""
        call = self.call(bv(total), bv(pending))
        self.go(call)
        return len(call.products.list)

    def prove(self):
        """Shows calls of any length. If none is accepted, they have no loop."""
        call = self.long_call(bv(self.pendings()[0]))
        if not self.kind.SIZE or call.facts.model((), call.accepted()) is None:
            return self.go(call)
        self.head, self.exit = cuts(self)
        call, *two = arrivals(self)
        self.invariants[self.head] = Invariant(self.stable(call), *two)
        while not (self.turn() and all(self.begin(pending) for pending in self.pendings())):
            pass
        return self.end()

    def begin(self, pending):
        return self.go(self.long_call(bv(pending)))

    def turn(self):
        return self.go(self.at_head(), self.head)

    def at_head(self):
        units = sym('units')
        where = units, simple(self.kind.UNIT * units), None
        return self.long_call(self.any_pending(), where)

    def end(self):
        """Goes from the exit with each remainder, by which the invariants must say how many bytes
        are left."""
        if self.exit not in self.invariants:
            raise Refused(f'{self.head:#x}: no turn leads out of the loop')
        if 'not too much' not in self.invariants[self.head].holding:
            raise Refused(f'{self.head:#x}: a turn may begin after more than all was taken')
        holding = self.invariants[self.exit].holding
        known = [m for m in self.moduli() if ('the rest is left', m) in holding]
        if not known or 'not too much' not in holding:
            raise Refused(f'{self.exit:#x}: after the last turn, more bytes or fewer are left than '
                          'the rest')
        for remainder in range(self.fixed, self.kind.GRAIN, 2**self.kind.FIXED_BITS):
            self.end_with(remainder, remainder & known[0] - 1)

    def end_with(self, remainder, rest):
        """Goes from the exit, but with no rest only if the invariant doesn't say that some is left:
        then these calls end before."""
        if not rest and 'some is left' in self.invariants[self.exit].holding:
            return
        taken = simple(self.total(remainder - rest) - self.any_pending())
        where = simple(z3.LShR(taken, self.kind.UNIT.bit_length() - 1)), taken, rest
        call = self.long_call(self.any_pending(), where, self.total(remainder))
        self.go(call, self.exit, remainder >> self.kind.FIXED_BITS)

    # The one way

    def go(self, call, pc=None, r=None):
        """Runs a call from its first instruction, or in any state that has the invariant of a cut,
        and judges where that leads. Returns whether the invariants hold there."""
        call.follow(self.step if pc else WINDOW)
        if pc is not None:
            self.assume(call, pc, r)
        call.check_possible()
        fits = True
        for end, at in call.cpu.run(pc or self.entry, (self.head, self.exit)):
            if at is None:
                call.judge(end)
            else:
                fits = self.arrive(call, end, pc, at) and fits
        return fits

    def assume(self, call, pc, r):
        """Puts a call that is accepted into any state that has the invariant of this place."""
        invariant, world = self.invariants[pc], World(call.words(0), call.units, call.length)
        conditions = self.conditions(call, world)
        call.facts.add(call.accepted(), *(conditions[name] for name in invariant.holding))
        number = [] if r is None else [(self.r, bv(r, self.r.size()))]
        invariant.assume(call.cpu, world, lambda term: put_for(term, *number))

    def arrive(self, call, end, pc, at):
        """Drops what doesn't hold at an arrival. Returns whether all did."""
        if not end.facts.holds(end.path, call.accepted()):
            end.refuse('a turn of a call that is refused')
        if pc == self.exit:
            end.refuse('a turn after the last')
        arrival, steps = self.arrival(call, end)
        if pc == at and not steps:
            end.refuse('a turn that takes nothing')
        if at not in self.invariants:
            self.invariants[at] = Invariant(self.stable(call), arrival, arrival)
        return self.invariants[at].admit(arrival)

    def arrival(self, call, end):
        """What arrives, and after how many steps."""
        steps = call.steps(end)
        world = World(call.words(steps),
                      simple(call.units + self.kind.SIZE // self.kind.UNIT * steps), call.length)
        return Arrival(end, world, self.conditions(call, world)), steps

    def conditions(self, call, world):
        """Conditions by name, of which an invariant has some."""
        left = simple(world.length - self.kind.UNIT * world.units)
        most = z3.LShR(world.length, self.kind.UNIT.bit_length() - 1)
        found = {'not too much': z3.ULE(world.units, most),
                 'some is left': left != 0,
                 'a turn is left': z3.UGE(left, self.step)}
        for modulus in self.moduli():
            rest = simple(call.total & (modulus - 1))
            found['whole turns', modulus] = left & (self.step - 1) == rest
            found['the rest is left', modulus] = left == rest
        return found

    def moduli(self):
        """Powers of two, the length modulo one of which is left after the last turn: that of a
        turn, or if single steps come before the turns, that of a step."""
        return {min(self.step, self.kind.GRAIN), self.kind.SIZE}

    def stable(self, call):
        """The symbols that mean the same at each arrival of a call: what it is passed, where the
        library is, its last bytes, and what the caller had in registers."""
        ends = (secret(f'{self.kind.COUNTED} end[{k}]', 8) for k in range(-self.kind.GRAIN - 8, 8))
        terms = *call.args.values(), *call.layout.MORE, call.total, LOADED, sym('return'), *ends, \
            *call.cpu.before.values()
        found = frozenset().union(*map(symbols, terms))
        # The turns of a write are those of any write.
        return found - symbols(self.q) - {'pending'} if self.kind.HAS_PENDING else found
