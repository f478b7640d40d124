"""Memory: arrays of bytes at symbolic addresses, and no other place."""
import z3
from terms import Refused, bv, join, part, secret, signed, simple, symbols, width_of


class MustSplit(Exception):
    """A number that the path does not fix. The path is then split, one way for each value, and the
    instruction is run again on each."""


class Array:
    """Memory of a size from a symbolic address on, either of which may be a symbol. Each of its
    `places` is a name, a number of bytes after the address, and the number that the byte there has
    under that name. The bytes of an array that is `named` are symbols by these two. A byte by two
    names may differ from itself, so code may be refused for that, and never passed."""

    def __init__(self, base, size, places, writable=False, named=False):
        self.base, self.size, self.places = simple(base), simple(size), places
        self.writable, self.named = writable, named


class Memory:
    """Arrays, which don't overlap: each has a symbol of its own for its address, and a store to one
    changes no other. The header asks that of the bytes that a call writes, and stores to others are
    refused at its end; if two are only read, an overlap changes nothing.

    A byte is kept as the term that was stored, and its number in it. One that isn't kept, nor
    named, has no content, and may not be read."""

    def __init__(self):
        self.places, self.arrays, self.data, self.inside = [], {}, {}, {}

    def copy(self):
        other = Memory()
        other.places, other.arrays = self.places, self.arrays
        other.data, other.inside = {**self.data}, {**self.inside}
        return other

    def add(self, array):
        for name, start, number in array.places:
            self.places.append((name, number, array, simple(array.base + start)))
            self.arrays.setdefault(name, (array, start - number))

    def find(self, cpu, address, length, write):
        """The name and number of the byte at an address, which must be one on this path. The costly
        way to find the number comes last."""
        names, known = symbols(address), False
        near = [(name, number, array.writable, simple(address - start))
                for name, number, array, start in self.places if symbols(array.base) & names]
        for number_of in signed, lambda term: cpu.facts.unique(term, cpu.path):
            for name, number, writable, difference in near:
                k = number_of(difference)
                known = known or k is not None
                if k is not None and self.has(cpu, name, k + number, k + number + length):
                    if write and not writable:
                        raise Refused(f'write of {length} bytes at {name}{k + number:+}, which is '
                                      'only read')
                    return name, k + number
        if near and not known:
            raise MustSplit(near[0][3])
        raise Refused(f'{"write" if write else "read"} of {length} bytes at {address}, which is '
                      'in no array that is passed')

    def has(self, cpu, name, low, high):
        """Whether an array has the bytes from one number up to another. More are asked at once, and
        those that are there are remembered."""
        (array, start), (first, last) = self.arrays[name], self.inside.get(name, (0, 0))
        if first <= low and high <= last:
            return True
        first, last = min(low, first), max(high, last)
        for low, high in (first & -64, last + 63 & -64), (first, last), (low, high):
            size = bv(high - low)
            cond = simple(z3.And(z3.ULE(size, array.size), z3.ULE(
                start + low, array.size - size)))
            if not z3.is_false(cond) and cpu.facts.holds(cpu.path, cond):
                self.inside[name] = low, high
                return True
        return False

    def load(self, cpu, address, length):
        return self.content(*self.find(cpu, address, length, False), length)

    def content(self, name, offset, length):
        """The bytes as one term."""
        pieces = []
        for k in range(offset, offset + length):
            if (name, k) not in self.data:
                if name not in self.arrays or not self.arrays[name][0].named:
                    raise Refused(f'read of a byte at {name}{k:+} that was not written')
                self.data[name, k] = secret(f'{name}[{k}]', 8), 0
            term, number = self.data[name, k]
            if pieces and pieces[-1][0] is term and pieces[-1][2] == number:
                pieces[-1][2] += 1
            else:
                pieces.append([term, number, number + 1])
        return join([part(term, 8 * low, 8 * (high - low)) for term, low, high in pieces])

    def store(self, cpu, address, value):
        name, offset = self.find(cpu, address, value.size() // 8, True)
        cpu.check_stack(name, offset)
        self.put(name, offset, value)

    def put(self, name, offset, value):
        for k in range(width_of(value) // 8):
            self.data[name, offset + k] = value, k

    def lose(self, name, end):
        """Forgets the bytes of an array before an offset."""
        for key in [key for key in self.data if key[0] == name and key[1] < end]:
            del self.data[key]

    def written(self, name):
        """The offsets of the bytes of an array that are known."""
        return sorted(k for n, k in self.data if n == name)
