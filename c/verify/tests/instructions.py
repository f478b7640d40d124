"""Compares single instructions with the processor: random ones of each encoding that is known, and
those of libraries. They are run in the model and really, and must leave the same registers, flags
and memory, and go on at the same address. Each encoding must be compared, with each conditional
jump both ways, and both values of each flag: instructions.py LEVEL[:LIBRARY].. COMPILER [EMULATOR].
Capstone must read all that is compared, and know nothing of other encodings in the table for ARM64.
"""
import collections
import functools
import itertools
import os
import pathlib
import random
import re
import subprocess
import sys
import tempfile
import types
from rows import Row, count
import aarch64
import capstone
import machine
import x86_64
import z3
from cases import open_library
from definition import Products
from elf import EXECUTE
from image import PROCESSORS
from memory import MustSplit
from terms import Refused, Unknown, bv, const, simple

# How many codes are tried for an encoding, and for each, how many that only resemble it; and how
# many are compared: FEW, or MANY if it jumps, since a jump of ARM64 may have the number of a bit.
X86, ARM = PROCESSORS.values()
TRIES, NEAR, FEW, MANY = {X86: 6000, ARM: 1000}, 4, {X86: 16, ARM: 20}, {X86: 32, ARM: 384}
# How often an instruction of a library is run, and flags that an instruction always sets so.
TIMES, FIXED = 8, {'shr': 's', **dict.fromkeys('and or xor test andn and/orr'.split(), 'cv')}
# Flags that Intel's or AMD's manual leaves undefined, and of which processors keep some.
UNDEFINED = {X86: {'bt': 'zsl', 'bts': 'zsl', 'bsr': 'scl', 'lzcnt': 'sl', 'mul': 'zsl'}, ARM: {}}
OTHER_PREFIXES = 0x2e, 0x66, 0x67, 0xf2, 0xf3, 0x26, 0x36, 0x3e, 0x64, 0x65, 0xf0
DECODERS = {X86: x86_64.DECODER, ARM: capstone.Cs(capstone.CS_ARCH_ARM64, capstone.CS_MODE_ARM)}
DECODERS[ARM].detail = True
# Where capstone knows no instruction; and how names end that have rows for ARM64, but no meaning.
NOTHING = types.SimpleNamespace(mnemonic='', op_str='', operands=())
NO_MEANING = 'vs', 'vc', 'al', 'nv', 'prfm', 'prfum', 'ldpsw'
# The program reads and writes images, at BASE: memory that an instruction may access, from SAVED on
# registers, from CODE on the instruction, which runs at START, and most often with POINTER as sp.
BASE, SAVED, CODE, SIZE = 2**32, 512, 2032, 2048
POINTER, START = BASE + 256, BASE + 2**16 + 2048
# Around the instruction is no code, so wherever it goes on, the processor stops with a signal. Its
# handler writes the image, with the registers of the signal's context, and takes the next image.
PROGRAM = '''
#include <signal.h>
#include <stdio.h>
#include <stdlib.h>
#include <string.h>
#include <sys/mman.h>
static char *const image = (char *)BASE, *const code = (char *)START, stack[1 << 16];
static void next(int number, siginfo_t *info, void *of) {
    mcontext_t *context = &((ucontext_t *)of)->uc_mcontext;
#ifdef __x86_64__
    char *vectors = (char *)context->fpregs;
    vectors[512] |= 7; /* The parts of vectors that the system restores. */
    struct { void *at; size_t size; } parts[] = {
        {context->gregs, 18 * 8}, {vectors + 160, 256}, {vectors + 576, 256}};
#else
    memset(context->__reserved + 528, 0, 8); /* Vectors are restored from this record alone. */
    struct { void *at; size_t size; } parts[] = {
        {context->regs, 34 * 8}, {context->__reserved + 16, 512}, {NULL, 0}};
#endif
    for (int in = 0; in < 2; in++) {
        if (in && !(fwrite(image, SIZE, 1, stdout) && fread(image, SIZE, 1, stdin))) exit(0);
        char *saved = image + SAVED;
        for (int k = 0; k < 3; saved += parts[k++].size)
            memcpy(in ? parts[k].at : saved, in ? saved : parts[k].at, parts[k].size);
    }
    memcpy(code, image + CODE, SIZE - CODE);
    __builtin___clear_cache(code, code + SIZE - CODE);
}
int main(void) {
    int signals[] = {SIGILL, SIGSEGV, SIGBUS}, flags = MAP_PRIVATE | MAP_ANONYMOUS | MAP_FIXED;
    struct sigaction action = {.sa_sigaction = next, .sa_flags = SA_SIGINFO | SA_ONSTACK};
    sigaltstack(&(stack_t){.ss_sp = stack, .ss_size = sizeof stack}, NULL);
    for (int k = 0; k < 3; k++) sigaction(signals[k], &action, NULL);
    setbuf(stdout, NULL), mmap(image, 4096, PROT_READ | PROT_WRITE, flags, -1, 0);
    mmap(code - 2048, 4096, PROT_READ | PROT_WRITE | PROT_EXEC, flags, -1, 0);
    memset(code - 2048, STOP, 4096), raise(SIGILL);
}
'''
WHOLE = {X86: lambda name: x86_64.REGISTERS.get(name, [None])[0],
         ARM: lambda name: {'fp': 'x29', 'lr': 'x30'}.get(name, name)}
# The bits of zero, sign, carry and overflow; a byte that begins no instruction; and the order in
# which an image has registers of 64 bits, the address of the next instruction, and the flags.
BITS, STOP = {X86: (6, 7, 0, 11), ARM: (30, 31, 29, 28)}, {X86: 6, ARM: 0}
WORDS = {X86: 'r8 r9 r10 r11 r12 r13 r14 r15 rdi rsi rbp rbx rdx rax rcx rsp at flags'.split(),
         ARM: [*(f'x{n}' for n in range(31)), 'sp', 'at', 'flags']}
MARCH = 'generic64+ibt', 'generic64+ibt+sse4.2', 'generic64+ibt+avx2+bmi+bmi2+lzcnt'


def encodings(kind):
    """Names and an encoding of each; for ARM64, all that capital letters stand for in a row."""
    if kind is X86:
        return [(row.name, row.encoding) for row in x86_64.ROWS]
    return [(row.name, re.sub('[a-z]', '.', ''.join(bits))) for row in aarch64.ROWS
            for bits in itertools.product(*('01' if bit.isupper() else bit for bit in row.bits))]


def x86_code(r, encoding, _, near):
    """Bytes for an encoding of x86-64, or near it, with another prefix, bit of VEX or opcode."""
    head, _, opcode = encoding.rpartition(':')
    opcode, _, reg = opcode.partition('/')
    prefix, wide = head.strip('vL.Wp'), 'W' in head
    other = bytes([r.choice(OTHER_PREFIXES)] if near else [])
    if head.startswith('v'):
        table = next(k for k in (2, 3, 1) if opcode.startswith(x86_64.MAPS[k]))
        third = 15 if '.' in head else r.randrange(16)
        last = wide << 7 | third << 3 | ('L' in head) << 2 | x86_64.PREFIXES.index(prefix)
        bit = 1 << r.randrange(16) & 255 if near else 0
        code = bytes([0xc4, r.randrange(8) << 5 | table, last ^ bit])
        if table == 1 and not wide and r.randrange(2):
            code = bytes([0xc5, r.randrange(2) << 7 | code[2] & 127])
        code = code if bit else other + code
        opcode = opcode[len(x86_64.MAPS[table]):]
    else:
        # Without a byte REX, some registers are the high bytes of others.
        rex = bytes([0x40 | wide << 3 | r.randrange(16)]) if wide or r.randrange(4) else b''
        code = b''.join(r.sample([other, bytes.fromhex(prefix)], 2)) + rex
    opcode, plus = bytearray.fromhex(opcode.rstrip('+')), opcode.endswith('+')
    opcode[-1] |= r.randrange(8) if plus else 0
    opcode[-1] ^= near and r.randrange(2)
    operands = r.choice([*r.randbytes(2), 0xc4, 0xc2, 0]) & 0xc7
    operands |= (int(reg) if reg else r.randrange(8)) << 3
    return code + opcode + bytes([operands, *r.choice([r.randbytes(9), bytes(9)])])


def arm_code(r, encoding, number, near):
    """Bytes for an encoding of ARM64, or near it, with another bit. The first bits of operands are
    the least and the greatest number, with signs and without, and then have all values in turn.
    The last registers are often sp, or those whose number is in them."""
    other = 1 << 31 - r.choice([k for k, given in enumerate(encoding) if given != '.'])
    ends = '0000000', '1000000', '1111111', '0111111'
    for bit in ends[number] if number < 4 else f'{number * 37 % 64:06b}':
        encoding = encoding.replace('.', bit, 1)
    operands, same = r.getrandbits(32), 33 * r.choice([31, number * 37 % 32])
    whole = operands & ~(4095 << 10) | r.choice([0, 31, 63]) << 10
    operands = f'{r.choice([operands, operands & -1024 | same, whole]):032b}'
    bits = ''.join(bit if given == '.' else given for given, bit in zip(encoding, operands))
    return (int(bits, 2) ^ near * other).to_bytes(4, 'little')


def random_image(r, kind, i, flags, some):
    """An image before an instruction, in which an address of it is likely to lie. The bits of a
    number say which flags are set, and the rest of memory and of vectors is random bytes."""
    number = [*(op.imm for op in i.read.operands if op.type == capstone.CS_OP_IMM), 0][0]
    likely = [0, 2**31, 2**32, 2**63, 2**64 - 1, POINTER, number, -number, *[1 << number % 64] * 2]
    values = {name: r.choice([*likely, ~likely[-1], r.getrandbits(6), *[r.getrandbits(64)] * 3])
              for name in WORDS[kind]}
    back = POINTER + 4 * r.randrange(-50, 50)
    values.update({kind.SP: POINTER, 'x30': back, 'at': START, 'flags': sum(
        (flags >> k & 1) << bit for k, bit in enumerate(BITS[kind]))})
    for op in (op for op in i.read.operands if op.type == capstone.CS_OP_MEM):
        index, base = (WHOLE[kind](i.read.reg_name(one)) if one else None
                       for one in (op.mem.index, op.mem.base))
        scaled = r.getrandbits(64) if index in values else 0
        values.update({index: scaled, base: POINTER + r.choice([1, 8, 16]) * r.randrange(8) - (
            op.mem.disp + scaled * (op.mem.scale if kind is X86 else 1 << op.shift.value))})
    words = b''.join((values[name] % 2**64).to_bytes(8, 'little') for name in WORDS[kind])
    image = some[:POINTER - BASE] + back.to_bytes(8, 'little')
    image += some[len(image):SAVED] + words
    return image + some[len(image):] + bytes(i.bytes).ljust(SIZE - CODE, bytes([STOP[kind]]))


def numbers(kind, image):
    """What an image holds, by name: registers, the memory, flags as the model has them, and the
    address to which a call returns. On ARM64, carry means that nothing was borrowed."""
    def number(at, size):
        return int.from_bytes(image[at:at + size], 'little')
    found = {name: number(SAVED + 8 * k, 8) for k, name in enumerate(WORDS[kind])}
    zero, sign, carry, overflow = (found['flags'] >> bit & 1 for bit in BITS[kind])
    v = [number(SAVED + 8 * len(found) + at, 16) for at in range(0, 512, 16)]
    found.update({f'v{k}': v[k] for k in range(32)} if kind is ARM else
                 {f'ymm{k}': v[k] | v[k + 16] << 128 for k in range(16)})
    found['return'] = found['x30'] if kind is ARM else number(found['rsp'] - BASE, 8)
    return {**found, 'memory': number(0, SAVED),
            'z': zero, 's': sign, 'c': carry ^ (kind is ARM), 'l': sign ^ overflow}


class OnNumbers:
    """A processor that has nothing but the memory of an image, and notes if a jump is taken."""
    taken = None

    def branch(self, cond, yes, no, todo):
        self.taken = z3.is_true(simple(cond))
        return super().branch(cond, yes, no, todo)

    def multiply(self, a, b, halves):
        return [bv(const(a) * const(b) >> 64 * half & 2**64 - 1) for half in halves]

    def offset(self, address, length):
        at = const(address)
        if at is None or not BASE <= at <= BASE + SAVED - length:
            raise Refused('another address')
        return at

    def load(self, address, length):
        return self.memory.content('image', self.offset(address, length), length)

    def store(self, address, value):
        self.memory.put('image', self.offset(address, value.size() // 8), value)


KINDS = {kind: type(kind.NAME, (OnNumbers, kind), {}) for kind in (X86, ARM)}


def in_model(kind, i, image):
    """Runs an instruction in the model, in a function that was called. Returns whether a jump was
    taken, the numbers as of an image, or None for what is undefined, and which flags are written,
    with v for overflow."""
    only = types.SimpleNamespace(instruction=lambda _: i, red_zone=False)
    cpu, before = KINDS[kind](only, Products()), numbers(kind, image)
    cpu.sp, before['ssp'] = bv(POINTER + 2048), 2**64 - 8
    cpu.r = {name: bv(before[name], term.size()) for name, term in cpu.r.items()}
    cpu.flags = {name: z3.BoolVal(before[name] == 1) for name in 'zscl'}
    given = {**cpu.r, **cpu.flags, 'memory': bv(before['memory'], 8 * SAVED)}
    cpu.memory.put('image', BASE, given['memory'])
    cpu.memory.put('shadow', -8, bv(before['return']))
    at = cpu.next(START, [])
    if at in range(START, START + i.size):
        raise Refused('it may never end')
    terms = {**cpu.r, **cpu.flags, 'memory': cpu.memory.content('image', BASE, SAVED)}
    if const(terms.pop('ssp')) == 2**64 - 16:
        terms['return'] = cpu.memory.content('shadow', -16, 8)
    # If there is no next address, the model returns from a call that was not made.
    after = {**before, **dict.fromkeys(('flags', 'return', *'zscl')), 'at': at or 0}
    for name, term in terms.items():
        changed = machine.number_of(term, 8) if name in cpu.flags else term
        after[name] = before[name] if term is given.get(name) else const(simple(changed))
    flags = {name: after[name] for name, term in cpu.flags.items() if term is not given[name]}
    if {'s', 'l'} <= flags.keys():
        flags['v'] = flags['s'] ^ flags['l']
    return cpu.taken, after, flags


def is_simple(i):
    """Whether an instruction has one operand in memory, by registers that it doesn't change."""
    places = [op.mem for op in i.read.operands if op.type == capstone.CS_OP_MEM]
    return len(places) == 1 and places[0].base not in (0, places[0].index) and \
        'ip' not in i.read.reg_name(places[0].base) and \
        not re.match('rep |push|pop|call|prf|ldpsw', i.read.mnemonic)


class Runs:
    """Runs of instructions in the model, the ways that they must go and went, and their texts."""

    def __init__(self, kind, level, seed):
        self.kind, self.level, self.r = kind, level, random.Random(seed)
        self.list, self.ways, self.known = [], collections.defaultdict(set), {}
        self.some = self.r.randbytes(CODE)

    def decoded(self, code):
        """An instruction, if it is allowed, and with it what capstone reads."""
        i = self.kind.decode(code[:self.kind.LONGEST], START)
        if i is None or not self.kind.is_known(i, self.level):
            return None
        i.read = next(DECODERS[self.kind].disasm(code, START), NOTHING)
        self.known[f'{i.mnemonic} {i.text}'.replace('cs:', '')] = i
        return i

    def add(self, i, number, ways):
        """Runs an instruction on a random image. Returns whether it jumps, and None if it can't be
        compared."""
        image = random_image(self.r, self.kind, i, number, self.some)
        try:
            taken, after, flags = in_model(self.kind, i, image)
        except (MustSplit, Refused, Unknown, z3.Z3Exception) as why:
            # The image has the address where the operand says, so the model's must be there too.
            if f'{why}'.endswith('another address') and is_simple(i):
                self.ways[f'{told(i)}, which the model has at another address'] = set()
            return None
        if i.read is NOTHING:
            self.ways[f'{told(i)}, which capstone does not know'] = set()
        ways[f'{i.row.name}, taken'].add(taken)
        for flag in flags.keys() - FIXED.get(i.row.name, ''):
            if flags[flag] is not None:
                ways[f'{i.row.name}, flag {flag}'].add(bool(flags[flag]))
        for flag in UNDEFINED[self.kind].get(i.row.name, ''):
            if after[flag] is not None:
                self.ways[f'{told(i)}, whose flag {flag} is undefined'] = set()
        self.list.append((told(i), image, after))
        return taken is not None or after['at'] != START + i.size

    def of_encoding(self, name, encoding):
        """Runs random instructions with an encoding, and some near it, until each way is met."""
        count, reserved, self.ways[f'{name}, taken'] = 0, self.kind is ARM, set()
        for number in range(TRIES[self.kind] * NEAR):
            near, make = number % NEAR > 0, x86_code if self.kind is X86 else arm_code
            i = self.decoded(make(self.r, encoding, number // NEAR, near))
            if i is None or not near and i.row.name != name:
                continue
            reserved &= near or i.read is NOTHING or i.read.mnemonic.endswith(NO_MEANING)
            jumps = self.add(i, count, collections.defaultdict(set) if near else self.ways)
            count += not near and jumps is not None
            if not near and jumps is not None and count >= (MANY if jumps else FEW)[self.kind] and \
                    not self.missing() or reserved and number > 64 * NEAR:
                break
        if reserved:
            del self.ways[f'{name}, taken']

    def of_codes(self, codes):
        """Runs instructions as they stand."""
        for code in codes:
            i, begin = self.decoded(code), len(self.list)
            for number in range(4 * TIMES if i else 0):
                if len(self.list) < begin + TIMES:
                    self.add(i, number, collections.defaultdict(set))
            if i and begin == len(self.list) and is_simple(i):
                self.ways[f'{told(i)}, which never runs'] = set()

    def missing(self):
        return [f'of {what}, only this is compared: {found}' for what, found in self.ways.items()
                if found not in ({None}, {True, False})]


def told(i):
    return f'{i.read.mnemonic} {i.read.op_str} ({i.bytes.hex()})'


def differences(kind, level, command, run, *given):
    """Runs instructions in the model and on the processor. Returns what differs, what was not
    compared, and what should not be allowed; or None."""
    machine.LOADED = x86_64.LOADED = aarch64.LOADED = bv(0)
    runs = Runs(kind, level, f'{given[-1]}' + os.environ.get('SEED', ''))
    run(runs, *given)
    done = subprocess.run(
        ['timeout', '600', *command], input=b''.join(image for _, image, _ in runs.list),
        stdout=subprocess.PIPE, check=False).stdout
    # The first is what the program left before it ran an instruction.
    replies = [done[k:k + SIZE] for k in range(SIZE, len(done) - SIZE + 1, SIZE)]
    failed = [f'{text}: {what} is {after[what]:#x} in the model, and {real:#x} really'
              for (text, _, after), image in zip(runs.list, replies)
              for what, real in numbers(kind, image).items() if after[what] not in (None, real)]
    failed += [f'the program ended at {text}' for text, *_ in runs.list[len(replies):][:1]]
    return [*failed, *runs.missing(), *(lacking(runs.known) if kind is X86 else ())] or None


def built(kind, compiler, path):
    values = dict(BASE=BASE, START=START, SAVED=SAVED, CODE=CODE, SIZE=SIZE, STOP=STOP[kind])
    subprocess.run([compiler, *(f'-D{name}={value}' for name, value in values.items()), '-xc',
                    '-D_GNU_SOURCE', '-o', path, '-'], input=PROGRAM.encode(), check=True)
    return path


def lacking(known):
    """Which instructions are allowed for a level whose processors lack them."""
    for level, march in zip(X86.LEVELS, MARCH):
        texts = sorted(text for text, i in known.items() if X86.is_known(i, level))
        said = subprocess.run(
            ['as', '-msyntax=intel', '-mnaked-reg', f'-march={march}', '-o', os.devnull],
            input=''.join(f'{text}\n' for text in texts), text=True, stderr=subprocess.PIPE,
            check=False).stderr
        yield from (f'{texts[int(line) - 1]}: for {level}, the assembler says {why}'
                    for line, why in re.findall(r':(\d+): Error: (.*)', said))


def codes_of(path, level):
    """The different instructions of a library."""
    image = open_library(pathlib.Path(path).read_bytes(), level)
    decoder = capstone.Cs(DECODERS[image.processor].arch, DECODERS[image.processor].mode)
    decoder.skipdata = True
    return {bytes(i.bytes) for part in image.elf.parts if part.flags & EXECUTE
            for i in decoder.disasm(part.data, part.start)}


def rows(folder, libraries, compiler, *emulator):
    """For each encoding, its random instructions, and those of libraries as they stand."""
    level, *paths = libraries.split(':')
    kind = next(kind for kind in PROCESSORS.values() if level in kind.LEVELS)
    program = pathlib.Path(folder, f'{level}.program')
    if not program.exists():
        os.replace(built(kind, compiler, f'{program}.{os.getpid()}'), program)
    command = [*emulator, program]
    do = functools.partial(functools.partial, differences, kind, level, command)
    yield Row('rows of the table for ARM64 that fit the same bits', '[]', lambda: [
        (one.bits, other.bits) for one, other in itertools.combinations(aarch64.ROWS, 2)
        if not any({*bits} == {'0', '1'} for bits in zip(one.bits, other.bits))])
    for name, encoding in encodings(kind):
        yield Row(f'{level}, {name} {encoding}', 'None', do(Runs.of_encoding, name, encoding))
    codes = sorted(set().union(*(codes_of(path, level) for path in paths)))
    for k in range(0, len(codes), 32):
        yield Row(f'{level}, instructions from {k} on', 'None',
                  do(Runs.of_codes, codes[k:k + 32]))


def main(*args):
    with tempfile.TemporaryDirectory() as folder:
        return count(rows(folder, *args))


if __name__ == '__main__':
    sys.exit(main(*sys.argv[1:]))
