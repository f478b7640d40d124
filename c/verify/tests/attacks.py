"""Changes the file of a library or bytes of its code, one at a time. Each must be refused for the
reason that stands beside it: attacks.py LEVEL:LIBRARY.."""
import contextlib
import functools
import os
import pathlib
import random
import struct
import subprocess
import sys
import tempfile
from rows import ARM, VERIFY, Row, Unknown, cases, count, opened, refusal
import elf
from elf import DYNAMIC, EXECUTE, FRAMES, LOAD, NOTES, READ, RELRO, SONAME, STACK, TABLE, WRITE

NAME, OTHER_NAME, LONG_NAME = 'komihash_v5_rand_next', 'komihash_v4_rand_next', 'komihash_v4'
KIND, RIGHTS, OFFSET, START, FILLED, SIZE, ALIGN = \
    (0, 4), (4, 4), (8, 8), (16, 8), (32, 8), (40, 8), (48, 8)
NAMED, INFO, OTHER, SECTION, VALUE, EXTENT = (0, 4), (4, 1), (5, 1), (6, 2), (8, 8), (16, 8)
# Symbols that are no functions which loaders find. INFO has the binding and the type.
SYMBOLS = {INFO: [k for k in range(256) if (k & 15 == 2) != (k >> 4 in (1, 2))],
           OTHER: (1, 2, 4, 8, 16, 32, 64, 128), SECTION: (0, 0xff00, 0xfff1, 0xfff2, 0xffff),
           VALUE: (0, 2**40)}
# Entries of the dynamic table, and bits of its flags, by which loaders do more, and one they skip.
TAGS, BIND_NOW = {*range(1, 39), *range(0x6ffffff0, 0x70000008), 0x7ffffffd, 0x7fffffff} - {
    4, 5, 6, 10, 11, 14, 16, 24, 30, 0x6ffffffb, 0x70000001}, 24
BITS = {30: (0, 2, 4), 0x6ffffffb: (1, 2, *range(4, 28))}


class Edit:
    """The bytes of a library, and where its tables are."""

    def __init__(self, content, level):
        self.content = bytearray(content)
        self.elf = cases.open_library(content, level).elf
        self.function, self.place = self.elf.functions([NAME, LONG_NAME])[0].values()
        self.parts = self.elf.of_type(LOAD)
        self.code_at = next(k for k, part in enumerate(self.parts) if part.flags & EXECUTE)
        self.code = self.parts[self.code_at]

    def put(self, field, number, offset=0):
        """Changes a field of the header, or of what begins at an offset."""
        at, size = field
        self.content[offset + at:offset + at + size] = number.to_bytes(size, 'little')

    def segment(self, kind, which, *changes):
        """Changes fields of a segment of this type."""
        numbers = [k for k, s in enumerate(self.elf.segments) if s.type == kind]
        start, = struct.unpack_from('<Q', self.content, 32)
        for field, number in changes:
            self.put(field, number, start + elf.SEGMENT.size * numbers[which])

    def entry(self, tag, new, value=None):
        """Changes an entry of the dynamic table."""
        place, = self.elf.of_type(DYNAMIC)
        at = place.offset
        while (found := elf.ENTRY.unpack_from(self.content, at))[0] != tag:
            at += elf.ENTRY.size
        elf.ENTRY.pack_into(self.content, at, new, found[1] if value is None else value)

    def move_table(self, at):
        """Moves the table of segments within the file."""
        start, size = elf.HEADER.size, elf.SEGMENT.size * len(self.elf.segments)
        self.put((32, 8), at)
        self.content[at:at + size] = self.content[start:start + size]

    def fill_table(self, *last):
        """Moves the table of segments after the file, with as many as there may be: after its own
        come parts of one byte, and then the last."""
        own, align = self.elf.segments, self.code.align
        parts = [(LOAD, elf.READ, 0, 2**24 + k * align, 0, 1, 1, align)
                 for k in range(elf.SEGMENTS - len(own) - 1)]
        self.put((32, 8), len(self.content))
        self.put((56, 2), elf.SEGMENTS)
        self.content += b''.join(elf.SEGMENT.pack(*one) for one in (*own, *parts, last))

    def symbol(self, field, number):
        found = self.elf.table[elf.SYMBOLS] + elf.SYMBOL.size * self.elf.find(NAME.encode())
        self.put(field, number, self.elf.offset(found))

    def bytes_at(self, address, new):
        offset = self.elf.offset(address)
        self.content[offset:offset + len(new)] = new

    def instruction(self, text, at=8):
        """Moves the function into another one, with an instruction after its mark."""
        offset = self.elf.offset(self.function)
        code = self.content[offset:offset + self.elf.symbols[self.elf.find(NAME.encode())][5]]
        self.bytes_at(self.place + at, code[:4] + bytes.fromhex(text) + code[4:])
        self.symbol(VALUE, self.place + at)

    def note(self, into, kind, *notes, first=b''):
        """Puts notes, each with properties of these values, into one segment, and no other."""
        packed = first + b''.join(struct.pack('<III4s', 4, 16 * len(one), 5, b'GNU\0') + b''.join(
            struct.pack('<IIII', kind, 4, value, 0) for value in one) for one in notes)
        self.bytes_at(self.elf.of_type(elf.PROPERTY)[0].start, packed)
        for other in ((elf.PROPERTY, 0), (NOTES, 0), (NOTES, 1)):
            self.segment(*other, *[(field, len(packed)) for field in (FILLED, SIZE)]
                         if other == (into, 0) else [(KIND, FRAMES)])


def of_header_and_marks(e):
    """Changes: a name, the reason for which it is refused, and what is done."""
    kind, nothing = {62: (0xc0000002, '0f1f4000'), 183: (0xc0000000, '1f2003d5')}[e.elf.machine]
    nothing, of_notes = (e.function, bytes.fromhex(nothing)), e.elf.of_type(NOTES)[0].start
    return [
        *((f'another byte {k}', 'no ELF file', e.put, (k, 1), 3) for k in range(16)),
        ('a program', 'no shared library', e.put, (16, 2), 2),
        ('another machine', 'has no level/not aligned', e.put, (18, 2), 245 - e.elf.machine),
        ('another version of the format', 'no shared library', e.put, (20, 4), 2),
        ('longer segments', 'no shared library', e.put, (54, 2), 112),
        *((f'only {size} bytes', 'too short', e.content.__delitem__, slice(size, None))
          for size in (63, 600)),
        ('a file of 64 MiB', 'more than 67108864', e.content.extend, bytes(2**26)),
        ('more segments', 'more than 64', e.put, (56, 2), 65),
        *((f'segments at {at:#x}', 'too short', e.put, (32, 8), at)
          for at in (2**40, len(e.content) - 100)),
        *((f'{name} without a mark', 'has none', e.bytes_at, at, nothing[1])
          for name, at in e.elf.functions(cases.NAMES)[0].items()),
        ('a mark of another kind', 'has none', e.bytes_at, e.function,
         bytes.fromhex({62: 'f30f1efb', 183: '9f2403d5'}[e.elf.machine])),
        *((f'marks {notes} in {into:#x}, and a function without', 'has none',
           lambda into=into, notes=notes: (e.note(into, kind, *notes), e.bytes_at(*nothing)))
          for into in (elf.PROPERTY, NOTES)
          for notes in ([[1]], [[0, 1]], [[0], [1]], [[1, 0]], [[1], [0]])),
        ('marks after another note', 'has none', lambda: (e.bytes_at(*nothing), e.note(
            elf.PROPERTY, kind, [1], first=struct.pack('<III12s8x', 5, 1, 1, b'XXXX')))),
        ('marks after a longer property', 'has none', lambda: (
            e.bytes_at(*nothing), e.note(elf.PROPERTY, kind, first=struct.pack(
                '<III4sIIQIIII', 4, 32, 5, b'GNU\0', kind, 8, 0, kind, 4, 1, 0)))),
        *((f'marks of an unknown kind {bit:#x}', 'unknown: 0xc0', e.note, elf.PROPERTY, kind, [bit])
          for bit in (1 << k for k in range(2, 32))),
        *((f'a property {one:#x}', 'None', e.note, NOTES, one, [8])
          for one in (0xc0010001, 0xc0010002) if e.elf.machine == 62),
        *((f'an unknown property {one:#x}', f'unknown: {one:#x}', e.note, NOTES, one, [1])
          for one in (0xb0008000, 0xc0008002)),
        *((f'notes {k} of another kind', 'of GNU of type 1', e.bytes_at, s.start + 8, b'\1')
          for k, s in enumerate(e.elf.of_type(NOTES))),
        ('a note without an end', 'note has no end', e.bytes_at, of_notes + 4, b'\0\1'),
        ('a property without an end', 'property has no end', e.bytes_at,
         e.elf.of_type(elf.PROPERTY)[0].start + 20, b'\0\0\0\1')]


def of_segments(e):
    code, last, relro, after = e.code, e.parts[-1], e.elf.of_type(RELRO)[0], e.parts[e.code_at + 1]
    here, align = ((START, code.start), (OFFSET, code.offset)), (ALIGN, code.align)
    small, at_64 = {62: 2**11, 183: 2**15}[e.elf.machine], ((OFFSET, 64), (START, 64))
    size, whole = elf.SEGMENT.size * len(e.elf.segments), ((FILLED, len(e.content)),
                                                           (SIZE, len(e.content)))
    to_page = code.align - code.start % code.align + 1
    nothing = (OFFSET, 0), (START, 2**20), (FILLED, 0), (SIZE, 0), align
    beyond = (last.start + last.size + 4095 & -4096) + 1 - relro.start
    return [(name, reason, e.segment, *change) for name, reason, *change in (
        ('a part over the last page of code', 'mapped over', LOAD, e.code_at + 1,
         (START, code.start + code.size - 1 & -code.align | after.offset % code.align)),
        ('zeros after variables', 'None', LOAD, -1, (SIZE, last.size + 8)),
        ('a part over the end of the file', 'too short', LOAD, -1, *whole),
        ('two parts to protect', 'at most one RELRO', NOTES, 0, (KIND, RELRO)),
        ('notes of another alignment', 'as loaders have it', elf.PROPERTY, 0, (ALIGN, 16)),
        ('the table of parts', 'None', NOTES, 0, (KIND, TABLE), *at_64, (FILLED, size),
         (SIZE, size)),
        ('a dynamic table without an end', 'no end', DYNAMIC, 0, (FILLED, 32), (SIZE, 32)),
        ('an empty part', 'a part is empty', NOTES, 0, (KIND, LOAD), *nothing),
        *((f'notes {k} elsewhere in the file', 'elsewhere in', NOTES, k, (OFFSET, code.offset))
          for k in range(len(e.elf.of_type(NOTES)))),
        ('a table over the end of a part', 'elsewhere in', LOAD, -1, (FILLED, last.filled - 8)),
        *((f'part {k} {name}', 'not aligned', LOAD, k, change)
          for k, part in enumerate(e.parts) for name, change in (
              ('with smaller pages', (ALIGN, small)),
              ('with pages of another size', (ALIGN, code.align * 5 // 4)),
              ('at another place of its pages', (OFFSET, part.offset + 16)))),
        ('memory without end', 'more than 67108864', LOAD, -1, (SIZE, 2**46)),
        ('tables that can not be read', 'can not be read', LOAD, 0, (RIGHTS, EXECUTE)),
        ('code that can be written', 'could be written', LOAD, e.code_at, (RIGHTS, 7)),
        ('a longer part in the file', 'longer in memory', LOAD, -1, (FILLED, last.size + 8)),
        ('zeros after the code', 'longer in memory', LOAD, e.code_at, (FILLED, code.size - 1)),
        ('variables of threads', 'unknown type', NOTES, 0, (KIND, 7)),
        ('two dynamic tables', 'one dynamic table', NOTES, 0, (KIND, DYNAMIC)),
        ('a stack that can run', 'could be executed', STACK, 0, (RIGHTS, 7)),
        ('no word about the stack', 'could be executed', STACK, 0, (KIND, FRAMES)),
        ('large stacks of threads', 'could be executed', STACK, 0, (SIZE, 2**40)),
        ('code that is protected', 'can not be written', RELRO, 0, *here),
        ('the end of memory, and more', 'can not be written', RELRO, 0, (SIZE, beyond)),
        ('no dynamic table in the file', 'elsewhere in', DYNAMIC, 0, (FILLED, 0)),
        ('another table of parts', 'another', NOTES, 0, (KIND, TABLE), (FILLED, 999), (SIZE, 999)),
        ('the table of parts at another address', 'elsewhere in', NOTES, 0, (KIND, TABLE),
         (OFFSET, 64), (FILLED, size), (SIZE, size)),
        ('a shorter table of parts', 'another one', NOTES, 0, (KIND, TABLE), *at_64),
        ('a table of parts before its place', 'another one', NOTES, 0, (KIND, TABLE), (OFFSET, 8),
         (START, 8), (FILLED, size), (SIZE, size)),
        ('a dynamic table at address 0', 'at address 0', DYNAMIC, 0, (START, 0), (OFFSET, 0)),
        ('a table of parts that can change', 'another one', LOAD, 0, (RIGHTS, 6)))] + [
            ('a table of parts before the first part', 'another one', lambda: (
                e.content.__setitem__(slice(0, 0), bytes(e.content[:64 + size]).ljust(
                    code.align, b'\0')),
                [e.put(OFFSET, s.offset + code.align, 64 + elf.SEGMENT.size * k)
                 for k, s in enumerate(e.elf.segments)])),
            ('a dynamic table that can only be read', 'can not be written', lambda: (
                e.segment(LOAD, -1, (RIGHTS, READ)),
                e.segment(RELRO, 0, (KIND, FRAMES), (SIZE, relro.filled)))),
            *((f'a table of parts over the end of part {k}', 'another one', e.move_table,
               part.offset + part.filled - 100) for k, part in enumerate(e.parts[:e.code_at + 1])),
            *((f'a last segment of type {kind:#x} and rights {rights}', reason, e.fill_table,
               kind, rights, 8, 8, 8, 1, 1, code.align) for kind, rights, reason in (
                   *((LOAD, rights, 'mapped over') for rights in (READ, READ | EXECUTE, 6)),
                   (7, 0, 'unknown type'), (STACK, 7, 'be executed'),
                   (DYNAMIC, 6, 'one dynamic table'))),
            *[('a part over a page of one byte', 'mapped over', lambda: (
                e.segment(LOAD, e.code_at, (FILLED, to_page), (SIZE, to_page)),
                e.segment(LOAD, e.code_at + 1, (
                    START, (code.start + to_page - 1) + after.offset % code.align))))][
                        e.elf.machine == 183:],
            *((f'another table of parts beside its own, {own}', 'another one', lambda own=own: (
                e.segment(NOTES, own, (KIND, TABLE), *at_64, (FILLED, size), (SIZE, size)),
                e.segment(NOTES, 1 - own, (KIND, TABLE)))) for own in (0, 1)),
            ('another dynamic table in the file', 'elsewhere in', lambda: (
                e.segment(DYNAMIC, 0, (OFFSET, len(e.content))),
                e.content.extend(e.content[last.offset:last.offset + 256])))]


def of_dynamic_table(e):
    names, written = e.elf.table[elf.HASHES], e.parts[-1].start + e.parts[-1].size - 8
    counts = [struct.pack('<II', 1, len(e.elf.symbols) + more) for more in (0, 99)]
    code = e.code.start
    return [(name, reason, e.entry, *change) for name, reason, *change in (
        *((f'an entry {tag:#x}', 'do more', SONAME, tag, code) for tag in sorted(TAGS)),
        *((f'a flag {1 << bit:#x} of {tag:#x}', 'do more', 30, tag, 1 << bit)
          for tag, bits in BITS.items() for bit in bits),
        ('no name', 'None', SONAME, BIND_NOW),
        ('flags that are allowed', 'None', 30, 30, 10),
        ('other flags that are allowed', 'None', SONAME, 0x6ffffffb, 9),
        ('no table of hashes', 'no DT_GNU_HASH', elf.HASHES, BIND_NOW),
        ('two of them', 'twice', SONAME, elf.HASHES, code),
        ('a table beyond memory', 'not in memory', SONAME, elf.COUNTED, 2**40),
        ('strings beyond memory', 'strings are not', elf.STRINGS, elf.STRINGS, 2**40),
        ('strings without an end', 'have no end', elf.STRINGS_SIZE, elf.STRINGS_SIZE,
         e.elf.table[elf.STRINGS_SIZE] - 1),
        ('a count of other symbols', 'counts other', SONAME, elf.COUNTED, names))] + [
            *((f'a count of {name} symbols', reason, lambda count=count: (
                e.entry(SONAME, elf.COUNTED, e.place + 8), e.bytes_at(e.place + 8, count)))
              for name, reason, count in zip(('its', 'more'), ('None', 'counts other'), counts)),
            ('a table that can be written', 'only read',
             lambda: (e.entry(SONAME, elf.COUNTED, written), e.bytes_at(written, counts[0])))]


def of_names(e):
    names, soname = e.elf.table[elf.HASHES], e.elf.table[elf.STRINGS] + e.elf.table.get(SONAME, 0)
    other = e.elf.strings.index(OTHER_NAME.encode() + b'\0')
    size, elsewhere = 8 * len(e.elf.filter), e.elf.functions([OTHER_NAME])[0][OTHER_NAME]
    buckets, at = names + 16 + size, e.elf.find(NAME.encode()) - e.elf.first
    chains, code = buckets + 4 * len(e.elf.buckets), e.elf.chains[at]
    every, numbers = b'\xff' * size, [*e.elf.buckets, *e.elf.chains]
    three = struct.pack(f'<II24s{len(numbers)}I', 3, e.elf.shift, every, *numbers)
    first = e.elf.symbols[e.elf.first][0].decode()
    filters = [(name, number // 64 % len(e.elf.filter), bit) for name, number in (
        (NAME, code), (first, e.elf.chains[0])) for bit in (
            3 << (number & 62), 1 << (number >> e.elf.shift) % 64)]
    early = next(k for k, one in enumerate(e.elf.chains) if not one & 1)
    return [(name, reason, e.bytes_at, *change) for name, reason, *change in (
        ('the name of another library', 'would take it for', soname, b'libc.so.6\0'),
        *((f'{one} in its name at {at}', 'would take it for', soname + at, one.encode())
          for one in '/$' for at in (11, 12)),
        ('no buckets', 'in different ways', names, bytes(4)),
        ('a filter of no words', 'in different ways', names + 8, bytes(4)),
        ('a symbol before the first', 'before its first', names + 4, b'\0\0\1'),
        ('one bucket before the first', 'before its first', names + 4,
         struct.pack('<I', min(k for k in e.elf.buckets if k) + 1)),
        *((f'another name of symbol {k}, of type {kind}', "also exports ['omi",
           e.elf.table[elf.SYMBOLS] + elf.SYMBOL.size * k, struct.pack(
               '<IB', e.elf.strings.index(e.elf.symbols[k][0]) + 1, 16 + kind))
          for k in (e.elf.first, len(e.elf.symbols) - 1) for kind in (0, 1, 2, 10)),
        ('a filter of three words', 'in different ways', names + 8, three),
        *((f'a shift of {n} bits', 'in different ways', names + 12, struct.pack('<I', n) + every)
          for n in (32, 33, 2**24, 2**31)),
        ('a name of no function', 'lacks..also exports', e.elf.table[elf.STRINGS] +
         e.elf.strings.index(b'komihash_v4_pad\0'), b's'),
        ('a longer name', "lacks ['komihash_v4_pad']", e.elf.table[elf.STRINGS] +
         e.elf.strings.index(b'komihash_v4_pad\0') + 15, b's'),
        *((f'another hash by bit {bit}', f'lacks..{NAME}', chains + 4 * at,
           struct.pack('<I', code ^ 1 << bit)) for bit in range(1, 32)),
        *((f'a filter without {bit:#x} of {name}', f'lacks..{name}', names + 16 + 8 * word,
           struct.pack('<Q', e.elf.filter[word] & ~bit)) for name, word, bit in filters),
        *((f'bucket {k}, which begins at {at}', 'lacks', buckets + 4 * k, struct.pack('<I', at))
          for k, one in enumerate(e.elf.buckets) if one for at in (0, one + 1)),
        ('many buckets', 'not in memory', names, struct.pack('<I', 2**17)),
        ('another last hash', 'lacks', chains + 4 * len(e.elf.chains) - 4,
         bytes([e.elf.chains[-1] & 255 ^ 2])),
        ('another hash', f'lacks..{NAME}', chains + 4 * at + 2, bytes([code >> 16 & 255 ^ 1])),
        ('a chain that ends early', 'lacks', chains + 4 * early,
         bytes([e.elf.chains[early] & 255 | 1])))] + [
             (name, reason, e.symbol, *change) for name, reason, *change in (
                 *((f'a symbol with {number:#x} at {field[0]}', 'no function', field, number)
                   for field, numbers in SYMBOLS.items() for number in numbers),
                 *((f'a symbol with {number:#x} at {field[0]}', 'None', field, number)
                   for field, number in ((EXTENT, 0), (INFO, 0x22), (OTHER, 3), (SECTION, 1))),
                 *[('a symbol of data', 'no function', VALUE, e.elf.table[elf.STRINGS])][
                     e.elf.machine == 183:],
                 ('a symbol before the code', 'no function', VALUE, (e.code.start - 8) % 2**64),
                 ('a name beyond the strings', 'not among', NAMED, 2**31),
                 ('two functions with one name', f'lacks..{NAME}', NAMED, other),
                 ('another function', f'{NAME}: ..output: found', VALUE, elsewhere))]


TOLD = {**dict.fromkeys(('another function', 'a byte below the stack'), '4 passed, 1 failed\n1'),
        'a jump of 16 bits': 'processes\n2', 'a file of 64 MiB': 'is cut\n2',
        'a name of no function': '58 val..is cut..SHA-256..capstone..also exp',
        'another hash': f'not checked: {NAME}\n..4 passed, 0 failed\n0'}


def changes(e):
    return [*of_header_and_marks(e), *of_segments(e), *of_dynamic_table(e), *of_names(e),
            *((f'a {what} of 16 bits', 'not known..(66', e.instruction, code) for what, code in (
                ('jump', '66 e9 0000'), ('short jump', '66 eb 00'), ('call', '66 e8 0000'),
                ('jump by a flag', '66 0f84 0000'), ('short jump by a flag', '66 74 00'),
                ('return', '66 c3')) if e.elf.machine == 62),
            ('a byte below the stack', 'below the stack pointer', e.instruction,
             {62: '884424ff', 183: 'e0c31fb8'}[e.elf.machine]),
            ('code that is not aligned', 'None' if e.elf.machine == 62 else 'that is not aligned',
             e.instruction, '', 10)]


def told(make, level, right):
    """What the command prints of an edited file and the right one, and its status."""
    with tempfile.NamedTemporaryFile(buffering=0) as file:
        file.write(make())
        done = subprocess.run(
            [sys.executable, '-B', VERIFY, '--some', '--function', OTHER_NAME, NAME, '--',
             level + file.name, level + right], check=False, text=True, stdout=subprocess.PIPE,
            stderr=subprocess.DEVNULL)
    return f'{done.stdout}{done.returncode}'


# The compilers and emulators by whose loaders a library is loaded.
LOADERS = {**dict.fromkeys(('x86-64', 'x86-64-v3'), [['cc'], ['musl-gcc']]),
           'armv8-a': [ARM]}
# Prints at which addresses of a library there are functions, and with `+`, the rights and the bytes
# of a part of memory.
LOADER = r'''
#include <dlfcn.h>
#include <stdio.h>
#include <stdlib.h>
static void part(const char *base, char *text) {
    unsigned long end = 0, at = (unsigned long)base + strtoul(text, &text, 10);
    char rights[5];
    FILE *maps = fopen("/proc/self/maps", "r");
    while (end <= at && fscanf(maps, "%*x-%lx %4s%*[^\n]", &end, rights) == 2) {}
    fputs(rights, stdout), fwrite((void *)at, strtoul(text, NULL, 10), 1, stdout), fclose(maps);
}
int main(int count, char **args) {
    void *library = dlopen(args[1], RTLD_NOW);
    Dl_info found;
    if (!library || !dladdr(dlsym(library, args[2]), &found)) return puts(dlerror()), 1;
    const char *base = found.dli_fbase;
    for (int k = 2; k < count; k++)
        if (*args[k] == '+') part(base, args[k]);
        else printf("%td ", (char *)dlsym(library, args[k]) - base);
}
'''


def read_otherwise(image, command):
    """What a loader reads in another way than the check, if anything."""
    parts = [part for part in image.elf.parts if not part.flags & WRITE]
    done = subprocess.run([*command, *cases.NAMES,
                           *(f'+{part.start} {len(part.data)}' for part in parts)],
                          check=False, capture_output=True)
    wanted = ''.join(f'{image.functions[one]} ' for one in cases.NAMES).encode() + b''.join(
        (b'r-xp' if part.flags & EXECUTE else b'r--p') + part.data for part in parts)
    return None if done.stdout == wanted else done.stderr + done.stdout[:400]


def loaded(edit, content, level, compiler, *emulator):
    """Of edited files, and some with a random byte in what is no code, those that pass, but that
    a loader reads in another way."""
    r, places = random.Random(os.environ.get('SEED', '1')), [
        k for part in edit.parts if not part.flags & EXECUTE
        for k in range(part.offset, part.offset + part.filled)]
    some = ((f'byte {at}', '', edit.put, (at, 1), r.randrange(256))
            for at in r.choices(places, k=400))
    with tempfile.TemporaryDirectory() as folder:
        program, copy = pathlib.Path(folder, 'loader'), pathlib.Path(folder, 'copy')
        subprocess.run([compiler, '-D_GNU_SOURCE', '-o', program, '-xc', '-', '-ldl'],
                       input=LOADER.encode(), check=True)
        for name, _, *change in (*changes(edit), *some):
            file = edited(edit, content, *change)
            with contextlib.suppress(Unknown):
                image = opened(file, level)
                copy.write_bytes(file)
                other = read_otherwise(image, [*emulator, program, copy])
                if other is not None:
                    return f'{name}: {other}'
    return None


def edited(edit, content, change, *args):
    edit.content[:] = content
    change(*args)
    return edit.content


def rows(*libraries):
    for level, path in (one.split(':', 1) for one in libraries):
        with open(path, 'rb') as file:
            content = file.read()
        edit = Edit(content, level)
        yield Row('no level', 'has no level', functools.partial(refusal, content, 'none', NAME))
        for loader in LOADERS.get(level, ()):
            yield Row(f'what passes, as the loader of {loader[0]} reads it', 'None',
                      functools.partial(loaded, edit, content, level, *loader))
        for name, reason, *change in changes(edit):
            make = functools.partial(edited, edit, content, *change)
            yield Row(name, reason, lambda make=make, level=level: refusal(make(), level, NAME))
            if name in TOLD:
                yield Row(f'{name}, by the command', TOLD[name], functools.partial(
                    told, make, f'{level}:', path))


if __name__ == '__main__':
    sys.exit(count(rows(*sys.argv[1:])))
