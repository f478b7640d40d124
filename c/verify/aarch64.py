"""ARM64 by one table, after Arm's manual: the bits of each instruction that is known, its name, and
what it does. A letter is a field, and in a formula its number. Capital letters choose what is done,
small ones with what. The other names are methods of Step, or stand in this file.

The processor's carry flag is set if a difference has no borrow, so the flag c here is its opposite.
"""
import collections
import operator
import re
from types import SimpleNamespace
import z3
from machine import LOADED, Cpu, Effect, compared
from terms import bv, choose, join, leading_zeros, part, resize, secret, simple, sym

TABLE = '''
SOF100010hiiiiiiiiiiiinnnnnddddd add/sub   add(word(n, 'sp'), bv(i << 12*h, width), not F)
SOF01011TT0mmmmmaaaaaannnnnddddd add/sub   add(word(n), shifted(SHIFTS[:3], a))
SOF01011001mmmmmEEEaaannnnnddddd add/sub   add(word(n, 'sp'), extended(a), not F)
SOO01010TTNmmmmmaaaaaannnnnddddd and/orr   logic(word(n), inverted(shifted(SHIFTS, a)))
SOO100100giiiiiijjjjjjnnnnnddddd and/orr   logic(word(n), mask(g, i, j), O != 3)
SOO100101hhiiiiiiiiiiiiiiiiddddd mov       move(i, 16*h)
0OO10011000iiiii0jjjjjnnnnnddddd bfm       field(i, j)
1OO1001101iiiiiijjjjjjnnnnnddddd bfm       field(i, j)
S0011010110mmmmm0010TTnnnnnddddd lsl/lsr   put(d, SHIFTS[T](word(n), word(m) & width - 1))
S101101011000000000100nnnnnddddd clz       put(d, leading_zeros(word(n)))
10011011000mmmmm011111nnnnnddddd mul       put(d, cpu.multiply(x(n), x(m), (0,))[0])
10011011110mmmmm011111nnnnnddddd umulh     put(d, cpu.multiply(x(n), x(m), (1,))[0])
SN011010100mmmmmkkkk0Qnnnnnddddd csel      put(d, choose(holds(k), word(n), inverted(word(m)) + Q))
S1111010010mmmmmkkkkI0nnnnn0jjjj ccmp      compare_if(word(n), bv(m, width) if I else word(m), j)
S011010Niiiiiiiiiiiiiiiiiiittttt cbz/cbnz  (word(t) != 0 if N else word(t) == 0, to(i, 19))
b011011Naaaaaiiiiiiiiiiiiiittttt tbz/tbnz  (part(x(t), 32*b + a, 1) == N, to(i, 14))
01010100iiiiiiiiiiiiiiiiiii0KKKK b.        (cpu.condition(CONDITIONS[K]), to(i, 19))
000101iiiiiiiiiiiiiiiiiiiiiiiiii b         to(i, 26)
100101iiiiiiiiiiiiiiiiiiiiiiiiii bl        put(30, cpu.note_call(instruction)) or to(i, 26)
11010110010111110000001111000000 ret       cpu.give_back(x(30))
11010101000000110010000000011111 nop       None
11010101000000110010010001011111 bti       None
1jj10000iiiiiiiiiiiiiiiiiiiddddd adrp      put(d, LOADED + ((here >> 12) + signed(4*i+j, 21) << 12))
ZZ111V01OOiiiiiiiiiiiinnnnnttttt ldr/str   access(i << scale())
ZZ111V00OO1mmmmm011Q10nnnnnttttt ldr/str   access(x(m) << Q*scale())
ZZ111V00OO0iiiiiiiii00nnnnnttttt ldur/stur access(signed(i, 9))
ZZ111V00OO0iiiiiiiii01nnnnnttttt ldr/str   access(0, signed(i, 9))
ZZ111V00OO0iiiiiiiii11nnnnnttttt ldr/str   access(signed(i, 9), 0)
ZZ101V010Oiiiiiiiuuuuunnnnnttttt ldp/stp   access(signed(i, 7) << scale())
ZZ101V001Oiiiiiiiuuuuunnnnnttttt ldp/stp   access(0, signed(i, 7) << scale())
ZZ101V011Oiiiiiiiuuuuunnnnnttttt ldp/stp   access(signed(i, 7) << scale(), 0)
010011110000000000000100000ddddd movi      vector(d, bv(0))
011011110000000011100100000ddddd movi      vector(d, bv(0))
1001111001100111000000nnnnnddddd fmov      vector(d, x(n))
0100111000001000000011nnnnnddddd dup       vector(d, x(n), x(n))
0100111000001000000111nnnnnddddd ins       vector(d, x(n), half(d, 1))
0100111000011000000111nnnnnddddd ins       vector(d, half(d, 0), x(n))
01001110000J1000001111nnnnnddddd umov      put(d, half(n, J))
01001110110mmmmm0J1110nnnnnddddd zip       vector(d, half(n, J), half(m, J))
01101110000mmmmm0iiii0nnnnnddddd ext       vector(d, part(join([v(n), v(m)]), 8*i, 128))
01001110101mmmmm000111nnnnnddddd orr       vector(d, v(n) | v(m))
01101110001mmmmm000111nnnnnddddd eor       vector(d, v(n) ^ v(m))
'''
SHIFTS = operator.lshift, z3.LShR, operator.rshift, z3.RotateRight
CONDITIONS = 'eq ne hs lo mi pl vs vc hi ls ge lt gt le'.split()
Row = collections.namedtuple('Row', 'bits pattern name effect')


def rows():
    for line in TABLE.strip().split('\n'):
        bits, name, effect = line.split(maxsplit=2)
        pattern = re.sub(r'([a-zA-Z])\1*', lambda it: f'(?P<{it[1]}>.{{{len(it[0])}}})', bits)
        yield Row(bits, re.compile(pattern), name, compile(effect, bits, 'eval'))


ROWS = [*rows()]


class Arm(Cpu):
    NAME = 'ARM64'
    ARGS, RESULTS = [f'x{n}' for n in range(8)], ('x0', 'x1')
    SAVED = [*(f'x{n}' for n in range(18, 30)), 'sp']
    SP, ABOVE, RED_ZONE, STEP, LONGEST = 'sp', 0, 0, 4, 4
    LEVELS, is_known = ('armv8-a',), staticmethod(lambda i, level: True)
    # The property of which features a file has marks for, those that are known (BTI, PAC), and the
    # mark of the first.
    MARKS, TOLD = (0xc0000000, 3, bytes.fromhex('5f2403d5')), ()

    @staticmethod
    def decode(code, address):
        """The instruction of these four bytes, if it has a row."""
        word = f'{int.from_bytes(code, "little"):032b}' if len(code) == 4 else ''
        for row in ROWS:
            if found := row.pattern.fullmatch(word):
                fields = {name: int(bits, 2) for name, bits in found.groupdict().items()}
                return SimpleNamespace(address=address, size=4, bytes=code, mnemonic=row.name,
                                       text=code[::-1].hex(), row=row, fields=fields)
        return None

    def do(self, i):
        return eval(i.row.effect, globals(), Step(self, i))

    def registers(self):
        words = {f'x{n}': secret(f'x{n} of the caller') for n in range(31)}
        return {**words, **{f'v{n}': secret(f'v{n} of the caller', 128) for n in range(32)}}

    def put_return(self):
        self.r['x30'] = sym('return')

    def check_return(self):
        super().check_return()
        for n in range(8, 16):
            if not z3.eq(part(self.r[f'v{n}'], 0, 64), part(self.before[f'v{n}'], 0, 64)):
                self.refuse(f'd{n} of the caller is lost')

    def struct_at(self, address):
        """The arguments by which a function is told where its struct goes, and its result."""
        self.r['x8'] = address
        return [], None


def signed(number, width):
    return number - (number >> width - 1 << width)


def extend(value, width, by_sign):
    return z3.SignExt(width - value.size(), value) if by_sign else resize(value, width)


class Step(Effect):
    """An instruction on a path. The words that it computes with have its width, 64 or 32 bits.
    Where registers have the number 31, it is zero, or if `sp` is true, the stack pointer."""
    u = None

    def __init__(self, cpu, i):
        super().__init__(cpu, i)
        self.here, self.width = i.address, 32 << (i.bytes[3] >> 7)
        self.__dict__.update(i.fields)

    def x(self, k, sp=False):
        return bv(0) if k == 31 and not sp else self.cpu.r['sp' if k == 31 else f'x{k}']

    def word(self, k, sp=False):
        return part(self.x(k, sp), 0, self.width)

    def put(self, k, value, sp=False):
        if k != 31 or sp:
            value = self.cpu.products.symbol_of(value)
            self.cpu.r['sp' if k == 31 else f'x{k}'] = resize(value, 64)

    def v(self, k):
        return self.cpu.r[f'v{k}']

    def half(self, k, high):
        return part(self.v(k), 64 * high, 64)

    def vector(self, k, *parts):
        self.cpu.r[f'v{k}'] = resize(self.cpu.products.symbol_of(join(parts)), 128)

    # What last operands are

    def mask(self, g, turn, last):
        """A number that repeats one of fewer bits: ones up to the last, then rotated."""
        size = 1 << (g << 6 | ~last & 63).bit_length() >> 1
        self.need(2 <= size <= self.width and last & size - 1 != size - 1)
        ones, turn = (2 << (last & size - 1)) - 1, turn & size - 1
        one = (ones >> turn | ones << size - turn) & (1 << size) - 1
        return bv(sum(one << k for k in range(0, self.width, size)), self.width)

    def shifted(self, shifts, n):
        self.need(self.T < len(shifts) and n < self.width)
        return simple(shifts[self.T](self.word(self.m), n))

    def extended(self, n):
        self.need(n < 5)
        low = part(self.word(self.m), 0, min(8 << (self.E & 3), self.width))
        return simple(extend(low, self.width, self.E > 3) << n)

    def inverted(self, value):
        return ~value if self.N else value

    # What is done

    def add(self, a, b, sp=False):
        result = simple(a - b if self.O else a + b)
        self.put(self.d, result, sp)
        if self.F and self.O:
            self.cpu.flags = compared(a, b)
        elif self.F:
            self.cpu.set_flags(result, c=z3.UGE(result, a))

    def logic(self, a, b, sp=False):
        result = simple((a & b, a | b, a ^ b, a & b)[self.O])
        self.put(self.d, result, sp)
        if self.O == 3:
            self.cpu.set_flags(result, c=z3.BoolVal(True), l=result < 0)

    def move(self, number, place):
        self.need(self.O != 1 and place < self.width)
        new, others = (bv(n, self.width) for n in (number << place, ~(0xffff << place)))
        self.put(self.d, (~new, None, new, self.word(self.d) & others | new)[self.O])

    def field(self, low, last):
        """Moves the bits from `low` to `last` down, or if that is lower, all up to it up. Others
        stay if O is 1, or become zero, or above these, if O is 0, their sign."""
        self.need(self.O < 3)
        start, place = (low, 0) if last >= low else (0, self.width - low)
        bits, end = part(self.word(self.n), start, last - start + 1), place + last - start + 1
        if self.O == 1:
            kept = [[part(self.word(self.d), k, size)] if size else []
                    for k, size in ((0, place), (end, self.width - end))]
            return self.put(self.d, join([*kept[0], bits, *kept[1]]))
        return self.put(self.d, extend(bits, self.width, self.O == 0) << place)

    def holds(self, k):
        return self.cpu.selector(CONDITIONS[k])

    def compare_if(self, a, b, flags):
        cond, yes = self.holds(self.k), compared(a, b)
        negative, zero, carry, overflow = (flags >> k & 1 for k in (3, 2, 1, 0))
        no = {'z': zero, 's': negative, 'c': not carry, 'l': negative != overflow}
        self.cpu.flags = {k: z3.If(cond, yes[k], z3.BoolVal(bool(no[k]))) for k in yes}

    def to(self, number, width):
        return self.here + 4 * signed(number, width)

    # Loads and stores of one register, or of two

    def scale(self):
        """How many times 2 is a factor of a register's bytes in memory."""
        if self.u is not None:
            self.need(self.Z < 3 and (self.V or self.Z != 1))
            return 2 + (self.Z if self.V else self.Z // 2)
        self.need(self.O < 2 or (self.Z == 0 if self.V else self.O + self.Z < 5))
        return 4 if self.V and self.O > 1 else self.Z

    def access(self, before, after=None):
        """Accesses memory at the base and an offset. If there is another one for after it, both are
        added to the base."""
        if self.n == 31:
            self.cpu.check_aligned(self.cpu.r['sp'], 16)
        address = simple(self.x(self.n, True) + before)
        if after is not None:
            self.need(self.V or self.n == 31 or self.n not in (self.t, self.u))
            self.put(self.n, address + after, True)
        is_load = self.O & 1 if self.V else self.O
        do, size = self.load if is_load else self.store, 1 << self.scale()
        do(self.t, address, size)
        if self.u is not None:
            self.need(not is_load or self.t != self.u)
            do(self.u, simple(address + size), size)

    def load(self, k, address, size):
        value = self.cpu.load(address, size)
        if self.V:
            self.vector(k, value)
        else:
            self.put(k, extend(value, 32 if self.O == 3 else 64, self.O > 1))

    def store(self, k, address, size):
        self.cpu.store(address, part(self.v(k) if self.V else self.x(k), 0, 8 * size))
