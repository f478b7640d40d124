"""The file of a shared library, as a loader reads it: which bytes it maps where, and which address
it finds for a name. Section headers say nothing here, since no loader reads them. What would make a
loader do more than map, look up names and protect pages is refused, and so are what two loaders may
take in different ways, and tables that don't lie whole in memory that can be read. Only the tables
by which debuggers and exceptions unwind the stack are not read.

All of it is trusted: if a loader maps other bytes, or finds another address, then what runs is not
what was checked."""
import collections
import functools
import re
import struct
from terms import Unknown

IDENT = b'\x7fELF' + bytes([2, 1, 1]) + bytes(9)  # 64 bits, little-endian, for any system
HEADER = struct.Struct('<16sHHIQQQIHHHHHH')
SEGMENT, ENTRY, SYMBOL = struct.Struct('<IIQQQQQQ'), struct.Struct('<QQ'), struct.Struct('<IBBHQQ')
WORD, NOTE = struct.Struct('<I'), struct.Struct('<III')
SHARED, EXECUTE, WRITE, READ = 3, 1, 2, 4
# By the numbers of processors, the largest pages that Linux has there. No library of this kind
# needs more segments, memory (or bytes of a file), names, and bytes of a name.
PAGES, SEGMENTS, MEMORY, LENGTH = {62: 2**12, 183: 2**16}, 64, 2**26, 2**10
# Types of segments.
LOAD, DYNAMIC, NOTES, TABLE = 1, 2, 4, 6
FRAMES, STACK, RELRO, PROPERTY = 0x6474e550, 0x6474e551, 0x6474e552, 0x6474e553
# Entries of the dynamic table that ask for nothing but to find names: those that are read here, and
# DT_SYMENT, DT_SYMBOLIC, DT_BIND_NOW, DT_AARCH64_BTI_PLT. Of flags, only these bits are allowed:
# symbolic, bind now; now, never unload.
COUNTED, STRINGS, SYMBOLS, STRINGS_SIZE, SONAME, HASHES = 4, 5, 6, 10, 14, 0x6ffffef5
FLAGS, FLAGS_1 = 30, 0x6ffffffb
NEEDED = {STRINGS, SYMBOLS, STRINGS_SIZE, HASHES}
ALLOWED = NEEDED | {COUNTED, SONAME, FLAGS, FLAGS_1, 11, 16, 24, 0x70000001}
BITS = {FLAGS: 10, FLAGS_1: 9}
# Symbols: their bindings (global and weak), type, visibilities (default and protected), and where
# numbers of sections end. Notes of GNU: the identifier of the build, and properties.
BINDINGS, FUNCTION, VISIBILITIES, RESERVED = (1, 2), 2, (0, 3), 0xff00
BUILD, PROPERTIES = 3, 5

Segment = collections.namedtuple('Segment', 'type flags offset start physical filled size align')
Part = collections.namedtuple('Part', [*Segment._fields, 'data'])


def need(holds, what):
    if not holds:
        raise Unknown(what)


class Elf:
    """A shared library: its machine, the parts of the file that are mapped, and what is found."""

    def __init__(self, content):
        self.content = content
        need(HEADER.size <= len(content) <= MEMORY, f'the file is too short, or has more than '
                                                    f'{MEMORY} bytes')
        ident, kind, self.machine, version, _, start, _, _, _, size, count, *_ = \
            HEADER.unpack_from(content)
        need(ident == IDENT, 'this is no ELF file of 64 bits, little-endian, for any system')
        need((kind, version, size) == (SHARED, 1, SEGMENT.size), 'this is no shared library')
        need(self.machine in PAGES, 'this is no library for x86-64 or ARM64')
        need(count <= SEGMENTS, f'there are more than {SEGMENTS} segments')
        need(start + size * count <= len(content), 'the file is too short')
        self.segments = [Segment(*one) for one in
                         SEGMENT.iter_unpack(content[start:start + size * count])]
        self.parts = list(self.mapped())
        self.check_segments(start, size * count)
        self.table = self.dynamic_table()
        self.read_tables()

    def of_type(self, *types):
        return [s for s in self.segments if s.type in types]

    def mapped(self):
        """The parts, of which no two share a page, and none can be both written and run. An empty
        one takes no page, and a loader may map its page in place of the next."""
        end = 0
        for s in self.of_type(LOAD):
            need(s.size, 'a part is empty')
            need(s.align >= PAGES[self.machine] and s.align & s.align - 1 == 0 and
                 (s.start - s.offset) % s.align == 0, 'a part is not aligned to pages')
            need(end <= s.start & -s.align, 'a part of the file is mapped over another')
            need(s.start + s.size + s.align <= MEMORY, f'it takes more than {MEMORY} bytes')
            need(s.flags in (READ, READ | EXECUTE, READ | WRITE),
                 'a part can not be read, or code could be written')
            need(s.filled == s.size or s.filled < s.size and s.flags & WRITE,
                 'a part is longer in memory than in the file')
            need(s.offset + s.filled <= len(self.content), 'the file is too short')
            end = s.start + s.size + s.align - 1 & -s.align
            yield Part(*s, self.content[s.offset:s.offset + s.filled])

    def check_segments(self, start, size):
        """What the loader reads in the file must be what it reads in memory, such as the table of
        the segments itself, which is here in the file and has so many bytes."""
        within = DYNAMIC, NOTES, TABLE, FRAMES, RELRO, PROPERTY
        types = [s.type for s in self.segments]
        need({*types} <= {LOAD, STACK, *within}, 'there is a segment of an unknown type')
        need(types.count(DYNAMIC) == 1 and types.count(RELRO) < 2,
             'there must be one dynamic table, and at most one RELRO')
        need([(s.flags & EXECUTE, s.size) for s in self.of_type(STACK)] == [(0, 0)],
             'the stack could be executed: there must be one GNU_STACK that says it is not')
        for s in self.of_type(*within):
            part = self.part_of(s.start, s.filled)
            need(part and s.offset == self.offset(s.start) and
                 (s.filled == s.size or s.type == RELRO), 'a segment lies elsewhere in the file')
            need(s.type != DYNAMIC or s.start, 'no loader takes a dynamic table at address 0')
            need(s.type not in (DYNAMIC, RELRO) or part.flags & WRITE and
                 s.start + s.size <= part.start + part.size + 4095 & -4096,
                 'what the loader writes can not be written')
        # Loaders take it to be in the first part whose pages have it.
        first = self.parts[0]
        need(not first.flags & WRITE and
             first.offset <= start and start + size <= first.offset + first.filled and
             all(s.offset == start and s.size >= size for s in self.of_type(TABLE)),
             'the table of segments is another one in memory')

    def part_of(self, address, length=1):
        """The part that has these bytes of the file, or None."""
        return next((p for p in self.parts if p.start <= address and
                     address + length <= p.start + len(p.data)), None)

    def at(self, address, length, flags=READ):
        """Bytes that are mapped with these permissions, and that nobody can change; or None."""
        p = self.part_of(address, length)
        if p and p.flags & (flags | WRITE) == flags:
            return p.data[address - p.start:address - p.start + length]
        return None

    def offset(self, address):
        """Where in the file the byte is that is mapped at an address."""
        p = self.part_of(address)
        return p and p.offset + address - p.start

    def array(self, layout, address, count=1):
        """The elements of a table, of which all must be there."""
        found = self.at(address, layout.size * count)
        need(found is not None, f'a table is not in memory that is only read: {address:#x}')
        return list(layout.iter_unpack(found))

    def words(self, address, count):
        return [word for word, in self.array(WORD, address, count)]

    def dynamic_table(self):
        """The values by their tags. The loader adds its address to some of them, so they are in
        memory that can be written, and the tables that they name are not."""
        place, = self.of_type(DYNAMIC)
        table, data = {}, self.content[place.offset:place.offset + (place.size & -ENTRY.size)]
        for tag, value in ENTRY.iter_unpack(data):
            if not tag:
                need(NEEDED <= set(table), 'there is no DT_GNU_HASH, or not all that it needs')
                return table
            need(tag in ALLOWED and not value & ~BITS.get(tag, value),
                 'the loader would do more than load it: '
                 f'{"NEEDED" if tag == 1 else hex(tag)} is {value:#x}')
            need(tag not in table, f'the dynamic table has {tag:#x} twice')
            table[tag] = value
        raise Unknown('the dynamic table has no end')

    # Names

    def read_tables(self):
        """Reads all that a loader may read to find any name, or the name of an address."""
        table, end = self.table, self.read_hashes(self.table[HASHES])
        need(COUNTED not in table or self.words(table[COUNTED], 2)[1] == end + 1,
             'DT_HASH counts other symbols')
        self.strings = self.at(table[STRINGS], table[STRINGS_SIZE])
        need(self.strings and not self.strings[-1], 'the strings are not in memory, or have no end')
        self.symbols = [(self.string(name), *more) for name, *more in
                        self.array(SYMBOL, table[SYMBOLS], end + 1)]
        name = self.string(table[SONAME]) if SONAME in table else b'libkomihash'
        need(re.fullmatch(rb'libkomihash[\w.-]*', name), f'a loader would take it for {name}')

    def read_hashes(self, at):
        """Reads the table of hashes, and returns the number of the last symbol."""
        buckets, self.first, size, self.shift = self.words(at, 4)
        need(buckets and size and size & size - 1 == 0 and self.shift < 32,
             'loaders read DT_GNU_HASH in different ways')
        words = self.words(at + 16, 2 * size + buckets)
        self.filter = [low | high << 32 for low, high in zip(words[:2 * size:2], words[1::2])]
        self.buckets, at = words[2 * size:], at + 16 + 8 * size + 4 * buckets
        need(all(not k or k >= self.first for k in self.buckets),
             'DT_GNU_HASH has a symbol before its first')
        # After the last symbol, whose hash is odd, no chain of a bucket goes on.
        end = max(self.first, *self.buckets)
        while not self.words(at + 4 * (end - self.first), 1)[0] & 1:
            end += 1
        self.chains = self.words(at, end + 1 - self.first)
        return end

    def string(self, start):
        end = self.strings.find(0, start, start + LENGTH)
        need(end >= 0, f'a name is not among the strings, or has more than {LENGTH} bytes')
        return self.strings[start:end]

    def find(self, name):
        """The number of the symbol that a loader finds for a name, or 0."""
        code = functools.reduce(lambda code, byte: code * 33 + byte & 0xffffffff, name, 5381)
        bits = self.filter[code // 64 % len(self.filter)]
        is_there = bits >> code % 64 & bits >> (code >> self.shift) % 64 & 1
        number = self.buckets[code % len(self.buckets)] if is_there else 0
        while number:
            found = self.chains[number - self.first]
            if found | 1 == code | 1 and self.symbols[number][0] == name:
                break
            number = 0 if found & 1 else number + 1
        return number

    def functions(self, names):
        """The addresses of those of the names that a loader finds, and all names that it may."""
        found = ((name, self.find(name.encode())) for name in names)
        return {name: self.function(name, number) for name, number in found if number}, \
            [name.decode(errors='replace') for name, *_ in self.symbols[self.first:]]

    def function(self, name, number):
        _, info, other, section, address, _ = self.symbols[number]
        need(info >> 4 in BINDINGS and info & 15 == FUNCTION and other in VISIBILITIES and
             0 < section < RESERVED and address and self.at(address, 1, READ | EXECUTE),
             f'{name} is no function that can be called')
        return address

    # Properties

    def properties(self):
        """The properties of the notes: their types and values."""
        for s in self.of_type(NOTES, PROPERTY):
            align, at, end = max(s.align, 4), s.start, s.start + s.size
            need(align in (4, 8), 'notes are not aligned as loaders have it')
            while at < end:
                (named, size, kind), = self.array(NOTE, at)
                start = at + (NOTE.size + named + align - 1 & -align)
                need(start + size <= end, 'a note has no end')
                if self.at(at + NOTE.size, named) == b'GNU\0':
                    need(kind in (BUILD, PROPERTIES), f'a note of GNU of type {kind}')
                    yield from self.in_note(start, size) if kind == PROPERTIES else ()
                at = start + (size + align - 1 & -align)

    def in_note(self, at, size):
        end = at + size
        while at < end:
            kind, length = self.words(at, 2)
            value = self.at(at + 8, length)
            need(value is not None, 'a property has no end')
            yield kind, int.from_bytes(value, 'little')
            at += 8 + (length + 7 & -8)
