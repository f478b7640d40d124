"""What both processors share: registers, memory, products, and the paths through the code."""
import copy
import examples
import z3
from memory import Array, Memory, MustSplit
from terms import (SYMBOLS, Facts, Refused, Unknown, bv, const, is_public, join, secret, signed,
                   simple, sym, symbols)

# Limits: bytes of a call's stack, instructions of a case, values of a number that splits a path.
STACK_BYTES, STEPS, VALUES = 4096, 20000, 64
# Where the loader puts the library: anywhere, at the start of a page.
LOADED = sym('library')
RETURN = object()
# Conditions of both processors, by the flags of which one must be set, or none. Flags are z (zero),
# s (sign), c (carry of a sum, borrow of a difference), and l (less: sign unlike overflow).
SOME = {'e': 'z', 'eq': 'z', 'b': 'c', 'lo': 'c', 's': 's', 'mi': 's', 'be': 'cz', 'ls': 'cz',
        'l': 'l', 'lt': 'l', 'le': 'lz'}
NONE = {'ne': 'z', 'ae': 'c', 'hs': 'c', 'ns': 's', 'pl': 's', 'a': 'cz', 'hi': 'cz',
        'ge': 'l', 'g': 'lz', 'gt': 'lz'}
CONDITIONS = {**SOME, **NONE}


def unknown(i):
    return Unknown(f'{i.address:#x}: no meaning is known of: {i.mnemonic} {i.text}')


def compared(a, b):
    """The flags of a - b."""
    return {'z': a == b, 's': a - b < 0, 'c': z3.ULT(a, b), 'l': a < b}


def number_of(cond, width):
    """1 if a condition holds, otherwise 0."""
    return z3.If(cond, bv(1, width), bv(0, width))


class Effect:
    """An instruction on a path: what the names mean by which a table says what it does."""

    def __init__(self, cpu, i):
        self.cpu, self.instruction = cpu, i

    def __getitem__(self, name):
        if not hasattr(self, name):
            raise KeyError(name)
        return getattr(self, name)

    def need(self, known):
        """Refuses encodings that the manual reserves, or whose outcome it leaves open."""
        if not known:
            raise unknown(self.instruction)


class Seen:
    """What the paths of one case met: instructions in the order in which they ran, bytes of stack,
    and symbols for contents on which a jump or an address depends."""

    def __init__(self):
        self.order, self.depth, self.by_contents = [], 0, set()


class Cpu:
    """A processor on one path through the code. Where a path forks, each way gets a copy, and the
    condition of the jump is added to its path. The ways together are all that can happen, since a
    way is left out only if the solver finds that its condition contradicts the path.

    ABOVE is how many bytes a call has put on the stack, and RED_ZONE how many below the stack
    pointer no signal handler writes. Instructions lie at multiples of STEP, and have up to LONGEST
    bytes. `decode` reads one, and `do` runs it: it returns None to go on, an address to jump to,
    RETURN, or for a jump with a condition, this and the address."""
    NAME = ARGS = RESULTS = SAVED = SP = ABOVE = RED_ZONE = STEP = LONGEST = None

    def __init__(self, image, products):
        # All paths share these.
        self.image, self.products = image, products
        self.facts, self.seen = Facts(), Seen()
        # Conditions that hold on this path, and which halves of products were made on it.
        self.path, self.halves = [], frozenset()
        self.memory, self.r, self.flags = Memory(), self.registers(), {}
        # The last instruction, and how many values are undefined.
        self.pc, self.undefined = None, 0
        self.sp = sym('sp')
        self.memory.add(Array(self.sp - STACK_BYTES, bv(STACK_BYTES + self.ABOVE),
                              [('stack', bv(STACK_BYTES), 0)], writable=True))
        self.facts.add(self.sp & 15 == self.ABOVE, LOADED & 4095 == 0)
        self.red_zone = self.RED_ZONE if image.red_zone else 0
        self.r[self.SP] = self.sp
        # The addresses to which calls must return, and a pointer to the last: no array has them.
        self.r['ssp'] = bv(0)
        self.memory.put('shadow', 0, sym('return'))
        self.put_return()
        self.before = dict(self.r)

    def copy(self):
        other = copy.copy(self)
        other.r, other.memory = dict(self.r), self.memory.copy()
        return other

    def refuse(self, why):
        """Refuses what the last instruction did, or what is found at its return."""
        i = self.image.instruction(self.pc)
        raise Refused(f'{i.address:#x}: {f"{i.mnemonic} {i.text}".strip()}: {why}') from None

    # Calls, and where they end

    def check_return(self):
        for register in self.SAVED:
            if not z3.eq(self.r[register], self.before[register]):
                self.refuse(f'{self.before[register]} is lost')

    def check(self, what, found, wanted):
        """Whether a term is the one that the definition gives."""
        if not self.facts.holds(self.path, found == wanted):
            self.refuse(f'{what}: {examples.difference(self, found, wanted)}')

    def check_bytes(self, what, name, wanted):
        """Whether just these bytes of an array were written, from its first on."""
        written = self.memory.written(name)
        if written != list(range(len(wanted))):
            self.refuse(f'{what}: the bytes {written} of {name} were written, and not '
                        f'{len(wanted)}')
        if wanted:
            self.check(what, self.memory.content(name, 0, len(wanted)), join(wanted))

    # Paths

    def run(self, start, stops=()):
        """Yields the states and places at which the paths return (None) or stop again."""
        todo, begin = [(self, start)], len(self.seen.order)
        while todo:
            cpu, pc = todo.pop()
            while pc is not None and (pc not in stops or len(self.seen.order) == begin):
                before = dict(cpu.r), cpu.flags, cpu.halves
                try:
                    pc = cpu.next(pc, todo)
                except MustSplit as split:
                    # It is run again, so nothing of it may stay. It splits before it stores.
                    cpu.r, cpu.flags, cpu.halves = before
                    todo += [(other, pc) for other in cpu.with_values(split.args[0])]
                    break
            else:
                yield cpu, pc

    def next(self, pc, todo):
        """Runs the instruction at a place: the next place, or None at the return."""
        i = self.image.instruction(pc)
        self.pc = pc
        self.seen.order.append(pc)
        if len(self.seen.order) > STEPS:
            raise Refused(f'more than {STEPS} instructions')
        self.stack_pointer = self.r[self.SP]
        try:
            went = self.do(i)
            if self.r[self.SP] is not self.stack_pointer:
                self.move_stack()
            if isinstance(went, tuple):
                return self.branch(*went, i.address + i.size, todo)
            return None if went is RETURN else i.address + i.size if went is None else went
        except Refused as refused:
            self.refuse(refused)
        except (KeyError, IndexError):
            raise unknown(i) from None

    def branch(self, cond, yes, no, todo):
        """The place after a jump; if both are possible, the other is left to do."""
        cond = simple(cond)
        decided = self.facts.decide(self.path, cond)
        if decided is None:
            self.note_time(cond)
            other = self.copy()
            other.path = self.path + [simple(z3.Not(cond))]
            todo.append((other, no))
            self.path = self.path + [cond]
        return no if decided is False else yes

    def with_values(self, term):
        """A copy for each value that a term can have here."""
        self.note_time(term)
        values = self.facts.values(term, self.path, VALUES)
        if values is None:
            self.refuse(f'a number with too many values: {term}')
        copies = [self.copy() for _ in values]
        for other, value in zip(copies, values):
            other.path = self.path + [term == value]
        return copies

    def note_time(self, term):
        if not is_public(term):
            self.seen.by_contents.update(symbols(term) & SYMBOLS.secret)

    # Memory

    def load(self, address, length):
        number = const(simple(address - LOADED)) if 'library' in symbols(address) else None
        data = self.image.elf.at(number, length) if number is not None else None
        if data:
            return bv(int.from_bytes(data, 'little'), 8 * length)
        return self.memory.load(self, address, length)

    def store(self, address, value):
        self.memory.store(self, address, value)

    def check_aligned(self, address, size):
        if not self.facts.holds(self.path, address & (size - 1) == 0):
            raise Refused(f'an address that is not aligned to {size} bytes: {address}')

    def move_stack(self):
        """Judges where the stack pointer now is. A signal handler may write below it and the red
        zone at any time, so what lies there is lost, and nothing of the caller may."""
        moved = simple(self.r[self.SP] - self.sp)
        offset = self.facts.unique(moved, self.path)
        if offset is None:
            raise MustSplit(moved)
        if not -STACK_BYTES <= offset <= self.ABOVE:
            raise Refused(f'the stack pointer is moved to {offset:+}, out of the stack of the call')
        self.seen.depth = max(self.seen.depth, self.ABOVE - offset)
        self.r[self.SP] = simple(self.sp + offset)
        self.memory.lose('stack', offset - self.red_zone)

    def check_stack(self, name, offset):
        """Judges a store by the stack pointer before the instruction, or the one after it. Bytes
        below it have no content, so they aren't read."""
        if name == 'stack':
            both = (signed(simple(p - self.sp)) for p in (self.stack_pointer, self.r[self.SP]))
            if all(offset < k - self.red_zone for k in both):
                raise Refused('access below the stack pointer')
            self.seen.depth = max(self.seen.depth, self.ABOVE - offset)

    # Calls within the library

    def note_call(self, i):
        """Notes where a call must return to, and returns this address."""
        back = simple(LOADED + (i.address + i.size))
        self.r['ssp'] = simple(self.r['ssp'] - 8)
        self.memory.put('shadow', signed(self.r['ssp']), back)
        return back

    def give_back(self, to):
        """A return, which must be that of the last call that has not returned."""
        last = signed(self.r['ssp'])
        if not z3.eq(to, self.memory.content('shadow', last, 8)):
            raise Refused(f'a return to {to}, which is not the caller')
        self.r['ssp'] = simple(self.r['ssp'] + 8)
        return const(simple(to - LOADED)) if last else RETURN

    # Values

    def compare(self, a, b):
        """Sets the flags of a - b."""
        self.flags = compared(a, b)

    def multiply(self, a, b, halves):
        """Halves (0 low, 1 high) of the product of these factors, each made only once."""
        made = {k for k, half in self.halves if half in halves}
        k = self.products.find(self.facts, a, b, made)
        self.halves |= {(k, half) for half in halves}
        return [self.products.list[k][2 + half] for half in halves]

    def fresh(self, width=64):
        """A symbol of its own, for a value that is not defined."""
        self.undefined += 1
        return secret(f'undefined {self.undefined} of {width}', width)

    def set_flags(self, result, **flags):
        """Zero and sign by the result, the others as given; without these they are not defined."""
        self.flags = {'z': result == 0, 's': result < 0, **flags}

    def condition(self, name):
        """A condition by its name."""
        some = z3.Or(*map(self.flag, CONDITIONS[name]))
        return z3.Not(some) if name in NONE else some

    def flag(self, name):
        if name not in self.flags:
            raise Refused(f'flag {name} is read, and is not defined')
        return self.flags[name]

    def selector(self, name):
        """The condition by which an instruction selects a value. If it doesn't depend on contents,
        the path is split, so that lengths and addresses are selected as by a jump."""
        cond = simple(self.condition(name))
        if not is_public(cond):
            return cond
        decided = self.facts.decide(self.path, cond)
        if decided is None:
            raise MustSplit(z3.If(cond, bv(1), bv(0)))
        return z3.BoolVal(decided)
