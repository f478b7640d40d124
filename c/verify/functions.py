"""What the definition says of each function."""
import itertools
import z3
from calls import Call, Outcome, some_lanes
from definition import (FALSE, TRUE, VERSIONS, State, are_padded, is_text, next_pair, padded_words,
                        seeded, start, top_bit, words_of)
from terms import bv, bytes_of, const, join, secret, simple, sym


class Blocks(Call):
    """Calls that absorb blocks of 64 bytes. The words of a state are the lanes, and the last word
    of the last block, from which version 4 has its top bit."""
    UNIT, SIZE, GRAIN, COUNTED = 1, 64, 64, 'bytes'

    def first(self):
        if self.at_cut:
            return State(some_lanes(' at a cut'), (), TRUE, top_bit(self.version, self.byte(-1)))
        return self.begun()

    def words(self, steps):
        if steps or self.at_cut:
            last = join(self.content(64 * steps - 8, 8))
        else:
            last = self.layout.last_word(self.state) if self.state else bv(0)
        return [*self.states[steps].lanes, last]

    def step(self, state, at):
        return state.absorb(self.products, self.version, self.content(at, 64))

    def ended(self, steps, rest):
        """The state after all bytes."""
        return self.states[steps].absorb(self.products, self.version,
                                         self.content(64 * steps, rest))


class Hash(Blocks):
    LEAST, FIXED_BITS = 3, 3

    def begun(self):
        return start(self.products, self.args['seed'])

    def outcome(self, *taken):
        return Outcome({'hash': self.ended(*taken).answer(self.products, self.version)})


class Write(Blocks):
    HAS_PENDING = True

    def begun(self):
        return State(self.state.lanes, (), self.state.had_block, self.state.top_bit)

    def outcome(self, *taken):
        return Outcome(state=self.ended(*taken))


class Start(Call):
    READS_STREAM = False

    def outcome(self, *_):
        result = {} if self.returned is None else {'address of the struct': self.returned}
        return Outcome(result, start(self.products, self.args['seed']))


class Finish(Call):
    HAS_PENDING, WHICH = True, (0, 1)

    def outcome(self, *_):
        return Outcome({'hash': self.state.answer(self.products, self.version)})


class Save(Call):
    HAS_PENDING = True

    def written(self):
        return self.total + 68

    def accepted(self):
        return z3.UGE(sym('room'), 131)

    def outcome(self, *_):
        text = bytes_of(self.state.text(self.version))
        return Outcome({'result': bv(len(text))}, out=text)

    def refused(self):
        return Outcome({'result': bv(0)})


class Resume(Call):
    """The longest text has 131 bytes. The bool that is returned is one byte."""
    UNIT, GRAIN, LEAST, READS_STREAM, BY_CONTENTS, COUNTED = 1, 4, 33, False, True, 'text'

    def accepted(self):
        length = const(self.length)
        return z3.BoolVal(False) if length is None else is_text(
            self.version, self.content(0, length))

    def outcome(self, *_):
        text = self.content(0, const(self.length))
        return Outcome({'result': TRUE}, State(words_of(text[4:68]), text[68:], *text[1:3]))

    def refused(self):
        return Outcome({'result': FALSE})


class RandInit(Call):
    """A generator from a seed, which is also the extra one, from two, or from its words."""

    def outcome(self, *_):
        pair = [*self.args.values()]
        if 's1' not in self.args:
            pair = seeded(self.products, self.version, pair[0], pair[-1])
        return Outcome(dict(zip(('s1', 's2'), pair)))


class Rand(Call):
    """Calls that change a generator, whose words are those of the definition."""

    def first(self):
        return [secret('s1 at a cut'), secret('s2 at a cut')] if self.at_cut else self.pair

    def step(self, words, _):
        pair = next_pair(self.products, self.version, *words)
        self.out += bytes_of(pair[0])
        return [*pair]


class RandNext(Rand):
    def outcome(self, *_):
        pair = self.step(self.pair, None)
        return Outcome({'output': pair[0]}, pair=pair)


class Fill(Rand):
    SIZE, COUNTED = 8, 'out'

    def written(self):
        return self.length

    def outcome(self, steps, rest):
        pair = self.states[steps]
        if rest:
            pair = self.step(pair, None)
        return Outcome({}, None, pair, self.out[:8 * steps + rest])


class Pad(Call):
    SIZE, COUNTED = 8, 'bytes'

    def number_of_words(self):
        return simple(z3.LShR(self.length, 3) + 1)

    def written(self):
        return simple(8 * self.number_of_words())

    def accepted(self):
        return z3.UGE(sym('room'), self.number_of_words())

    def step(self, words, at):
        self.out += self.content(at, 8)
        return words

    def outcome(self, steps, rest):
        before = 8 * (self.at_cut or steps > 0)
        words = padded_words(self.version, self.content(8 * steps - before, before + rest))
        out = self.out[:8 * steps] + bytes_of(words[-1])
        return Outcome({'length': self.number_of_words()}, out=out)

    def refused(self):
        return Outcome({'length': bv(0)})


class Unpad(Call):
    """The words but the last one are taken, and then the first bytes of that. Its last byte that
    isn't 0 is judged one by one: which it is, and whether it is 1, 2 or more; or it has none. A
    call may also have no words."""
    SIZE, STRIDE, FIXED_BITS, BY_CONTENTS, COUNTED = 8, 8, 3, True, 'words'
    WHICH, EMPTY = ((0, 0), *itertools.product(range(8), (1, 2, 3))), ((),)

    def count(self):
        return simple(z3.LShR(self.length, 3) + 1) if self.which else bv(0)

    def array(self, kind, name, count):
        if name == 'words':
            base = super().array(kind, name, count)
            self.index, self.fits = 0, z3.BoolVal(False)
            if self.which:
                self.pass_last_word(*self.which)
            return base
        return super().array(kind, name, count)

    def pass_last_word(self, index, byte):
        name, end = ('words', self.left) if self.is_number() else ('words end', 0)
        found = self.memory.content(name, end + index, 1) if byte == 3 else bv(byte, 8)
        self.facts.add(z3.UGE(found, byte))
        for k, one in enumerate([found] + [bv(0, 8)] * (7 - index)):
            self.memory.put(name, end + index + k, one)
        words = [self.memory.content(name, k, 1) for k in range(
            end - 8 * (not self.is_number() or end > 0), end + 8)]
        self.index, self.fits = index, are_padded(self.version, words, len(words) - 8 + index)

    def written(self):
        return simple(self.length + self.index)

    def accepted(self):
        return z3.And(self.fits, z3.UGE(sym('room'), 8 * self.count()))

    step = Pad.step

    def outcome(self, steps, rest):
        out = self.out[:8 * steps] + self.content(8 * steps, rest + self.index)
        return Outcome({'length': self.written()}, out=out)

    def refused(self):
        return Outcome({'length': bv(-1)})


# Of each function, the class of its calls, and the definition's multiplications for n bytes with p
# bytes pending, which are counted for calls whose length is a number.
SUFFIXES = {
    '': (Hash, '3 + 4*(n//64) + n%64//16'), '_start': (Start, '1'), '_init': (Start, '1'),
    '_write': (Write, '4*((p+n)//64)'), '_finish': (Finish, '2 + p//16'), '_save': (Save, '0'),
    '_resume': (Resume, '0'), '_rand_init': (RandInit, '4'), '_rand_init_words': (RandInit, '0'),
    '_rand_init_with_extra_seed': (RandInit, '4'), '_rand_next': (RandNext, '1'),
    '_rand_fill': (Fill, '(n+7)//8'), '_pad': (Pad, '0'), '_unpad': (Unpad, '0')}
FUNCTIONS = {f'komihash_v{version}{suffix}': row for version in VERSIONS
             for suffix, row in SUFFIXES.items()}
