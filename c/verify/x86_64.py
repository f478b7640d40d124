"""x86-64 by one table, after Intel's manual, volume 2: the first level of processors that has an
instruction (x86-64, v2 or v3), its name, its encodings, and what it does.

A processor runs bits, and a decoder may print something else, as where it skips a prefix. So
capstone is believed only of these encodings. After the opcode, `/n` stands for n in place of a
register in the ModRM byte, and `+` for one in the opcode's last three bits. Before a colon stand
the prefix that belongs to the opcode, and W for REX.W or VEX.W. An encoding by VEX begins with `v`,
as does the name of a vector instruction then; L follows if vectors have 256 bits, and `.` if it has
no third operand, so that those bits of VEX must be set. `V` stands for `v` and `vL`, and CC and `?`
for each condition and its number. A prefix 2e in front means nothing, nor does 66 before what does
nothing, which `p` says. Operands are a, b and c; the other names are methods of Step, or stand in
this file."""
import collections
import operator
import re
import z3
from capstone import CS_ARCH_X86, CS_MODE_64, Cs
from capstone import x86_const as X
from machine import LOADED, Cpu, Effect, number_of
from memory import MustSplit
from terms import bv, choose, const, join, leading_zeros, part, resize, secret, simple, sym

TABLE = '''
1 add 00 01 02 03 04 05 80/0 81/0 83/0 | add(a, b)
1 or  08 09 0a 0b 0c 0d 80/1 81/1 83/1 | logic(a | b)
1 adc 10 11 12 13 14 15 80/2 81/2 83/2 | add(a, b, cpu.flag('c'))
1 sbb 18 19 1a 1b 1c 1d 80/3 81/3 83/3 | subtract(a, b, cpu.flag('c'))
1 and 20 21 22 23 24 25 80/4 81/4 83/4 | logic(a & b)
1 sub 28 29 2a 2b 2c 2d 80/5 81/5 83/5 | subtract(a, b)
1 xor 30 31 32 33 34 35 80/6 81/6 83/6 | logic(a ^ b)
1 cmp 38 39 3a 3b 3c 3d 80/7 81/7 83/7 | cpu.compare(a, b)
1 test 84 85 a8 a9 f6/0 f7/0           | flags_of(a & b)
3 andn v:0f38f2 vW:0f38f2              | logic(~b & c)
1 neg f7/3 f6/3                        | subtract(0 * a, a)
1 not f7/2 f6/2                        | put(0, ~a)
1 inc ff/0 fe/0                        | step(1)
1 dec ff/1 fe/1                        | step(-1)
1 rol c0/0 c1/0 d0/0 d1/0 d2/0 d3/0    | shift(z3.RotateLeft)
1 shl c0/4 c1/4 d0/4 d1/4 d2/4 d3/4    | shift(operator.lshift)
1 shr c0/5 c1/5 d0/5 d1/5 d2/5 d3/5    | shift(z3.LShR)
1 sar c0/7 c1/7 d0/7 d1/7 d2/7 d3/7    | shift(operator.rshift)
1 shld 0fa4 0fa5                       | shift_double(a, b, count(2))
3 shlx v66:0f38f7 v66W:0f38f7          | put(0, b << count(2))
3 shrx vf2:0f38f7 vf2W:0f38f7          | put(0, z3.LShR(b, count(2)))
1 bt 0fba/4 0fa3                       | bit_test()
1 bts 0fba/5 0fab                      | bit_test(True)
1 bsr 0fbd                             | highest_bit(own)
3 lzcnt f3:0fbd f3W:0fbd               | count_zeros(own)
1 mul W:f7/4                           | multiply(cpu.r['rax'], a)
3 mulx vf2W:0f38f6                     | put_both(cpu.multiply(cpu.r['rdx'], c, (0, 1)))
1 mov 88 89 8a 8b b0+ b8+ c6/0 c7/0 66:89 66:c7/0 | put(0, b)
1 movabs W:b8+                         | put(0, b)
1 movzx 0fb6 0fb7                      | put(0, resize(own, width))
1 movsx/movsxd 0fbe 0fbf W:63          | put(0, z3.SignExt(width - own.size(), own))
1 cdqe W:98               | set('rax', simple(z3.SignExt(32, part(cpu.r['rax'], 0, 32))))
1 lea 8d                               | put(0, part(address(1), 0, width))
1 setCC 0f9?                           | put(0, choose(cpu.selector('CC'), bv(1, 8), bv(0, 8)))
1 cmovCC 0f4?                          | put(0, choose(cpu.selector('CC'), b, a))
1 jCC 7? 0f8?                          | (cpu.condition('CC'), to)
1 jmp eb e9                            | to
1 call e8 67:e8                        | call(to)
1 ret c3                               | cpu.give_back(pop())
1 push 50+ ff/6                        | push(get(0, 64))
1 pop 58+                              | put(0, pop())
1 leave c9                             | set('rsp', cpu.r['rbp']) or set('rbp', pop())
1 nop p:90 p:0f1f/0                    | None
1 endbr64 f3:0f1e                      | None
1 rep_movsb/rep_movsq f3:a4 f3W:a5     | copy(cpu.r['rcx'])
1 movups/movdqu 0f10 0f11 V.:0f10 V.:0f11 f3:0f6f f3:0f7f V.f3:0f6f V.f3:0f7f | put(0, b)
1 movaps/movdqa 0f28 0f29 V.:0f28 V.:0f29 66:0f6f 66:0f7f V.66:0f6f V.66:0f7f | align() or put(0, b)
1 movq 66W:0f6e 66W:0f7e f3:0f7e 66:0fd6 v.66W:0f6e v.66W:0f7e v.f3:0f7e v.66:0fd6 | \
put(0, resize(get(1, 64), width))
1 paddq 66:0fd4 V66:0fd4               | packed(64, lambda a, b, n: [*map(operator.add, a, b)])
1 pxor/xorps 66:0fef 0f57 V66:0fef V:0f57 | packed(64, lambda a, b, n: [*map(operator.xor, a, b)])
1 punpcklqdq/movlhps 66:0f6c 0f16 V66:0f6c v:0f16 | packed(64, lambda a, b, n: [a[0], b[0]])
1 punpckhqdq/unpckhpd 66:0f6d 66:0f15 V66:0f6d V66:0f15 | packed(64, lambda a, b, n: [a[1], b[1]])
2 palignr 66:0f3a0f             | packed(8, lambda a, b, n: (b + a + [bv(0, 8)] * n)[n:n + 16])
1 shufps 0fc6   | packed(32, lambda a, b, n: [(a, a, b, b)[k][n >> 2*k & 3] for k in range(4)])
1 movhps 0f16 0f17 v:0f16 v.:0f17 | pieces(64, lambda a, b, n: b[1:] or [a[0], b[0]])
2 pextrq 66W:0f3a16 v.66W:0f3a16       | pieces(64, lambda a, b, n: [b[n & 1]])
2 pinsrq 66W:0f3a22 v66W:0f3a22 | pieces(64, lambda a, b, n: [b[:1] + a[1:], a[:1] + b[:1]][n & 1])
3 extracti128 vL.66:0f3a39             | whole(128, lambda a, b, n: [b[n & 1]])
3 inserti128 vL66:0f3a38 | whole(128, lambda a, b, n: [b[:1] + a[1:], a[:1] + b[:1]][n & 1])
3 blendps V66:0f3a0c | whole(32, lambda a, b, n: [p[n >> k & 1] for k, p in enumerate(zip(a, b))])
3 permq vL.66W:0f3a00        | whole(64, lambda a, b, n: [b[n >> 2*k & 3] for k in range(4)])
3 permpd vL.66W:0f3a01       | whole(64, lambda a, b, n: [b[n >> 2*k & 3] for k in range(4)])
3 broadcastsd vL.66:0f3819             | put(0, join([get(1, 64)] * 4))
3 broadcastf128 vL.66:0f381a           | put(0, join([get(1, 128)] * 2))
3 zeroupper v.:0f77                    | clear_high_halves()
'''
CONDITIONS = {2: 'b', 3: 'ae', 4: 'e', 5: 'ne', 6: 'be', 7: 'a', 8: 's', 9: 'ns', 12: 'l', 13: 'ge',
              14: 'le', 15: 'g'}
# By their numbers in VEX.
PREFIXES, MAPS = ('', '66', 'f3', 'f2'), ('', '0f', '0f38', '0f3a')
DECODER = Cs(CS_ARCH_X86, CS_MODE_64)
DECODER.detail = True
Row = collections.namedtuple('Row', 'level name printed encoding pattern effect')


def pattern(encoding):
    """The bits with which an instruction begins that has an encoding."""
    head, _, opcode = encoding.rpartition(':')
    opcode, _, reg = opcode.partition('/')
    prefix, wide, table = head.strip('vL.Wp'), 'W' in head, ''
    if head.startswith('v'):
        table = next(one for one in reversed(MAPS) if opcode.startswith(one))
        last = f'{"1111" if "." in head else "...."}{"L" in head:b}{PREFIXES.index(prefix):02b}'
        begin = f'11000100...{MAPS.index(table):05b}{wide:b}{last}'
        if table == '0f' and not wide:
            begin = f'(?:{begin}|11000101.{last})'
    elif head == 'p':
        begin = '(?:00101110|01100110)*'
    else:
        rex = '01001...' if wide else '(?:01000...)?' if prefix else '(?:0100....)?'
        begin = bits(prefix) + rex
    code = bits(opcode[len(table):].rstrip('+'))
    return re.compile('(?:00101110)*' + begin + (code[:-3] + '...' if opcode[-1] == '+' else code) +
                      (f'..{int(reg):03b}' if reg else ''))


def bits(digits):
    return f'{int(digits, 16):0{4 * len(digits)}b}' if digits else ''


def rows():
    """The rows of the table, one for each encoding."""
    for line in TABLE.strip().split('\n'):
        for n, cond in CONDITIONS.items() if 'CC' in line else [(0, '')]:
            head, effect = line.replace('CC', cond).split('|', 1)
            level, name, *encodings = head.replace('?', f'{n:x}').split()
            effect, names = compile(effect.strip(), name, 'eval'), name.split('/')
            for one in encodings:
                for each in sorted({one.replace('V', 'v'), one.replace('V', 'vL')}):
                    by_vex = each[0] == 'v'
                    printed = {*names, *(f'v{one}' for one in names if by_vex)}
                    yield Row(max(int(level), 3 * by_vex), name, printed, each, pattern(each),
                              effect)


ROWS = [*rows()]


def registers():
    """Register, lowest bit and width by the name of a part."""
    names = {f'{n}h': (f'r{n}x', 8, 8) for n in 'abcd'}
    for whole, *parts in [*((f'r{n}x', f'e{n}x', f'{n}x', f'{n}l') for n in 'abcd'),
                          *((f'r{n}', f'e{n}', n, f'{n}l') for n in ('sp', 'bp', 'si', 'di')),
                          *((f'r{n}', f'r{n}d', f'r{n}w', f'r{n}b') for n in range(8, 16))]:
        names.update(zip((whole, *parts), ((whole, 0, width) for width in (64, 32, 16, 8))))
    for n in range(16):
        names.update({f'ymm{n}': (f'ymm{n}', 0, 256), f'xmm{n}': (f'ymm{n}', 0, 128)})
    return names


REGISTERS = registers()


class X86(Cpu):
    NAME = 'x86-64'
    ARGS, RESULTS = ('rdi', 'rsi', 'rdx', 'rcx', 'r8', 'r9'), ('rax', 'rdx')
    SAVED = 'rbx', 'rbp', 'r12', 'r13', 'r14', 'r15'
    SP, ABOVE, RED_ZONE, STEP, LONGEST = 'rsp', 8, 128, 1, 15
    LEVELS = 'x86-64', 'x86-64-v2', 'x86-64-v3'
    # The property of which features a file has marks for, those that are known (IBT, SHSTK), and
    # the mark of the first; and properties that only tell of a file.
    MARKS, TOLD = (0xc0000002, 3, bytes.fromhex('f30f1efa')), (0xc0010001, 0xc0010002)

    @staticmethod
    def decode(code, address):
        """The instruction at the begin of some bytes, with its row if it has one."""
        i = next(DECODER.disasm(code, address), None)
        if i is not None:
            i.ops, i.text, name = i.operands, i.op_str, i.mnemonic.replace(' ', '_')
            i.row = next((row for row in ROWS if name in row.printed and row.pattern.match(
                bits(bytes(i.bytes).hex()))), None)
        return i

    @classmethod
    def is_known(cls, i, level):
        """Whether an instruction is one that this level of processors runs as decoded."""
        return i.row is not None and i.row.level <= cls.LEVELS.index(level) + 1

    def do(self, i):
        return eval(i.row.effect, globals(), Step(self, i))

    def registers(self):
        return {name: secret(f'{name} of the caller', width)
                for name, (whole, _, width) in REGISTERS.items() if name == whole}

    def put_return(self):
        self.memory.put('stack', 0, sym('return'))

    def check_return(self):
        super().check_return()
        if not z3.is_true(simple(self.r['rsp'] == self.sp + 8)):
            self.refuse('the stack pointer is not where the caller left it')

    def struct_at(self, address):
        """The arguments by which a function is told where its struct goes, and its result."""
        return [address], address


class Step(Effect):
    """An instruction on a path. Its operands have the width of the first, but `own` is the second
    by its own."""
    a, b, c = (property(lambda step, k=k: step.get(k, step.width)) for k in range(3))
    own, to = property(lambda step: step.get(1)), property(lambda step: step.ops[0].imm)

    def __init__(self, cpu, i):
        super().__init__(cpu, i)
        self.ops, self.aligned, self.is_vex = i.ops, False, i.mnemonic[0] == 'v'
        self.width = 8 * i.ops[0].size if i.ops else 0

    def address(self, k):
        m = self.ops[k].mem
        a = bv(m.disp)
        if m.base:
            name, i = DECODER.reg_name(m.base), self.instruction
            a = a + (LOADED + (i.address + i.size) if name == 'rip' else self.cpu.r[name])
        if m.index:
            a = a + self.cpu.r[DECODER.reg_name(m.index)] * m.scale
        if self.aligned:
            self.cpu.check_aligned(simple(a), self.ops[k].size)
        return simple(a)

    def align(self):
        """Lets the processor check addresses."""
        self.aligned = True

    def get(self, k, width=None):
        """Operand k, of this width or its own."""
        op = self.ops[k]
        if op.type == X.X86_OP_IMM:
            return bv(op.imm, width or 64)
        if op.type == X.X86_OP_MEM:
            return self.cpu.load(self.address(k), (width or 8 * op.size) // 8)
        n, low, size = REGISTERS[DECODER.reg_name(op.reg)]
        return part(self.cpu.r[n], low, min(size, width or size))

    def put(self, k, value):
        op, value = self.ops[k], self.cpu.products.symbol_of(value)
        if op.type == X.X86_OP_MEM:
            return self.cpu.store(self.address(k), value)
        n, low, size = REGISTERS[DECODER.reg_name(op.reg)]
        old = self.cpu.r[n]
        # These clear what is above them in the register; others keep it.
        if size == 32 or size == 128 and self.is_vex:
            value = resize(value, old.size())
        elif size < old.size():
            below = [part(old, 0, low)] if low else []
            value = join([*below, value, part(old, low + size, old.size() - low - size)])
        self.cpu.r[n] = value

    def set(self, name, value):
        self.cpu.r[name] = value

    # Numbers

    def flags_of(self, result):
        self.cpu.set_flags(result, c=z3.BoolVal(False), l=simple(result) < 0)

    def logic(self, result):
        self.put(0, simple(result))
        self.flags_of(simple(result))

    def add(self, a, b, carry=z3.BoolVal(False)):
        result = simple(a + b + number_of(carry, a.size()))
        self.put(0, result)
        self.cpu.set_flags(result, c=z3.If(carry, z3.ULE(result, a), z3.ULT(result, a)))

    def subtract(self, a, b, borrow=None):
        if borrow is None:
            self.put(0, a - b)
            return self.cpu.compare(a, b)
        result = simple(a - b - number_of(borrow, a.size()))
        self.put(0, result)
        self.cpu.set_flags(result, c=z3.If(borrow, z3.ULE(a, b), z3.ULT(a, b)))

    def step(self, by):
        result = simple(self.a + by)
        self.put(0, result)
        self.cpu.set_flags(result, **{k: f for k, f in self.cpu.flags.items() if k == 'c'})

    def count(self, k):
        """The count of a shift, modulo the width, or modulo 32 if the word is narrower."""
        n = simple(resize(self.get(k, 8), self.width) & (63 if self.width == 64 else 31))
        self.need(self.width >= 32 if const(n) is None else const(n) < self.width)
        return n

    def shift(self, do):
        a, n = self.a, self.count(1)
        result = simple(do(a, n))
        self.put(0, result)
        if const(n) is None or do is z3.RotateLeft:
            self.cpu.flags = {}
        elif const(n):
            last = a.size() - const(n) if do is operator.lshift else const(n) - 1
            self.cpu.set_flags(result, c=part(a, last, 1) == 1)

    def shift_double(self, a, b, n):
        self.put(0, (a << n) | z3.If(n == 0, bv(0, a.size()), z3.LShR(b, a.size() - n)))
        self.cpu.flags = {}

    def bit_test(self, is_set=False):
        self.need(self.ops[0].type == X.X86_OP_REG)
        a, n = self.a, simple(self.b & (self.width - 1))
        if is_set:
            self.put(0, a | (bv(1, self.width) << n))
        self.cpu.flags = {'c': z3.Extract(0, 0, z3.LShR(a, n)) == 1}

    def highest_bit(self, a):
        """If there is none, the whole register is undefined, also where its high half else is 0."""
        found = resize(a.size() - 1 - leading_zeros(a), 64)
        whole = REGISTERS[DECODER.reg_name(self.ops[0].reg)][0]
        self.cpu.r[whole], self.cpu.flags = choose(a == 0, self.cpu.fresh(), found), {'z': a == 0}

    def count_zeros(self, a):
        self.put(0, leading_zeros(a))
        self.cpu.flags = {'z': a < 0, 'c': a == 0}

    def multiply(self, a, b):
        self.cpu.r['rax'], self.cpu.r['rdx'] = self.cpu.multiply(a, b, (0, 1))
        self.cpu.flags = {}

    def put_both(self, halves):
        self.put(1, halves[0])
        self.put(0, halves[1])

    # Vectors

    def pieces(self, bits, do, span=128):
        """Puts what a function makes of the pieces of this many bits of the last two operands
        before the number, and of the number, if there is one: in each span of as many bits."""
        last = len(self.ops) - 1 - (self.ops[-1].type == X.X86_OP_IMM)
        b = self.get(last)
        a = self.get(last - 1) if self.ops[last - 1].type == X.X86_OP_REG else b
        found = []
        for low in range(0, b.size(), span):
            halves = ([part(term, k, bits) for k in range(low, min(low + span, term.size()), bits)]
                      for term in (a, b))
            found += map(self.cpu.products.symbol_of, do(*halves, self.ops[-1].imm))
        self.put(0, join(found))

    def whole(self, bits, do):
        self.pieces(bits, do, 256)

    def packed(self, bits, do):
        """Without VEX, addresses must be aligned."""
        self.aligned = not self.is_vex
        self.pieces(bits, do)

    def clear_high_halves(self):
        self.cpu.r.update((f'ymm{n}', resize(part(self.cpu.r[f'ymm{n}'], 0, 128), 256))
                          for n in range(16))

    # The stack, and memory

    def push(self, value):
        self.cpu.r['rsp'] = simple(self.cpu.r['rsp'] - 8)
        self.cpu.store(self.cpu.r['rsp'], value)

    def pop(self):
        value = self.cpu.load(self.cpu.r['rsp'], 8)
        self.cpu.r['rsp'] = simple(self.cpu.r['rsp'] + 8)
        return value

    def call(self, to):
        # The processor puts nothing on a shadow stack for a call of the next instruction.
        self.need(to != self.instruction.address + self.instruction.size)
        self.push(self.cpu.note_call(self.instruction))
        return to

    def copy(self, number):
        """Copies so many bytes or words upwards: the direction flag is clear at each call, and no
        instruction here sets it."""
        r, size, count = self.cpu.r, self.ops[0].size, self.cpu.facts.unique(number, self.cpu.path)
        if count is None:
            raise MustSplit(number)
        for _ in range(count % 2**64):
            self.cpu.store(r['rdi'], self.cpu.load(r['rsi'], size))
            r.update((n, simple(r[n] + size)) for n in ('rdi', 'rsi'))
        r['rcx'] = bv(0)
