"""The definition of komihash, on terms; docs/DEFINITIONS.md has it in formulas. A product is a pair
of new symbols, low and high, with its factors noted, and code that multiplies must have these."""
import functools
import z3
from terms import Refused, bv, bytes_of, choose, const, join, secret, simple

VERSIONS = (4, 5)
PI = [0x243f6a8885a308d3, 0x13198a2e03707344, 0xa4093822299f31d0, 0x082efa98ec4e6c89,
      0x452821e638d01377, 0xbe5466cf34e90c6c, 0xc0ac29b7c97c50dd, 0x3f84d5b5b5470917]
PLACES = {4: [0, 1, 2, 3, 4, 5, 6, 7], 5: [0, 4, 1, 5, 2, 6, 3, 7]}
FALSE, TRUE = bv(0, 8), bv(1, 8)
EVEN_BITS, ODD_BITS = 0x5555555555555555, 0xaaaaaaaaaaaaaaaa


class Products:
    """The products of a definition: their factors, and the symbols of their halves.

    Nothing is known of these symbols, so what is shown holds for any halves, also for the right
    ones. Code that multiplies the factors of a product here gets the same halves as the definition,
    so it is given the same symbols. Therefore nothing needs to be known of multiplication. In the
    same way, other values have symbols, by the numbers that Z3 gives their terms: so terms stay
    small."""

    def __init__(self):
        self.list, self.values = [], {}

    def symbol(self, term):
        term, symbol = simple(term), secret(f'value {len(self.values)} between products')
        return self.values.setdefault(term.get_id(), (symbol, term))[0]

    def symbol_of(self, term):
        """The symbol of a term that code computes, or if it has none, the term."""
        term = simple(term)
        return self.values.get(term.get_id(), (term,))[0]

    def new(self, x, y):
        k = len(self.list)
        halves = secret(f'low half of product {k}'), secret(f'high half of product {k}')
        self.list.append((simple(x), simple(y), *halves))
        return halves

    def find(self, facts, a, b, made):
        """The number of the product with these factors, which is none of those already made."""
        for same in z3.eq, lambda one, other: facts.holds((), one == other):
            for k, (x, y, _, _) in enumerate(self.list):
                for u, v in ((x, y), (y, x)):
                    if k not in made and same(a, u) and same(b, v):
                        return k
        raise Refused('a product that the definition does not have, or has made already')


def mix(products, x, y, e):
    low, high = products.new(x, y)
    e = products.symbol(e + high)
    return simple(e ^ low), e


def seed_pair(products, seed):
    x, y = PI[0] ^ (seed & EVEN_BITS), products.symbol(PI[4] ^ (seed & ODD_BITS))
    return mix(products, x, y, y)


def lanes(pair):
    return [simple(pair[k // 4] ^ (PI[k] if k % 4 else 0)) for k in range(8)]


def block_round(products, version, s, block):
    w = [block[k] for k in PLACES[version]]
    r = [products.new(w[2 * k] ^ s[k], w[2 * k + 1] ^ s[4 + k]) for k in range(4)]
    # The new s5 to s8; before the first comes the last.
    t = [products.symbol(s[4 + k] + r[k][1]) for k in range(4)]
    return [simple(t[k - 1] ^ r[k][0]) for k in range(4)] + t


def join_lanes(had_block, s):
    # If the flag is no number, this is an error, after which nothing is claimed.
    folded = [simple(functools.reduce(lambda x, y: x ^ y, half)) for half in (s[:4], s[4:])]
    return {0: [s[0], s[4]], 1: folded}[const(had_block)]


def words_of(content):
    content = [*content] + [bv(0, 8)] * (-len(content) % 8)
    return [join(content[k:k + 8]) for k in range(0, len(content), 8)]


def top_bit(version, last):
    return choose(z3.And(version == 4, last < 0), TRUE, FALSE)  # z3 compares with signs.


def padding_byte(version, last):
    return simple(top_bit(version, last) + 1)


def padded_words(version, message):
    if not message:
        return [bv(0)]
    return words_of([*message, padding_byte(version, message[-1])])


def are_padded(version, content, length):
    """Whether these bytes are the padded words of a message, which is the first of them."""
    words, padded = words_of(content), padded_words(version, content[:length])
    return simple(z3.And(len(words) == len(padded), *(a == b for a, b in zip(words, padded))))


def hash_from_pair(products, pair, w):
    while len(w) >= 3:
        pair, w = mix(products, w[0] ^ pair[0], w[1] ^ pair[1], pair[1]), w[2:]
    a, e = pair
    a, e = mix(products, a ^ w[0], e ^ w[1] if len(w) == 2 else e, e)
    return mix(products, a, e, e)[0]


def hash_from_lanes(products, version, s, w, had_block):
    while len(w) >= 9:
        s, w, had_block = block_round(products, version, s, w[:8]), w[8:], TRUE
    return hash_from_pair(products, join_lanes(had_block, s), w)


def komi(products, version, seed, message):
    s = lanes(seed_pair(products, seed))
    return hash_from_lanes(products, version, s, padded_words(version, message), FALSE)


class State:
    """A stream's state: lanes, pending bytes, and both flags, which are bytes."""

    def __init__(self, lanes, pending=(), had_block=FALSE, top_bit=FALSE):
        self.lanes, self.pending = lanes, list(pending)
        self.had_block, self.top_bit = had_block, top_bit

    def absorb(self, products, version, message):
        state = State(self.lanes, [*self.pending, *message], self.had_block, self.top_bit)
        while len(state.pending) >= 64:
            block, rest = state.pending[:64], state.pending[64:]
            s = block_round(products, version, state.lanes, words_of(block))
            state = State(s, rest, TRUE, top_bit(version, block[63]))
        return state

    def answer(self, products, version):
        words = padded_words(version, self.pending)
        if {0: False, 1: True}[const(self.had_block)] and not self.pending:
            words = words_of([simple(self.top_bit + 1)])
        return hash_from_pair(products, join_lanes(self.had_block, self.lanes), words)

    def text(self, version):
        head = [bv(version, 8), self.had_block, self.top_bit, bv(len(self.pending), 8)]
        return join([*head, *self.lanes, *self.pending])


def start(products, seed):
    return State(lanes(seed_pair(products, seed)))


def is_text(version, text):
    """Whether bytes are the text of a state."""
    if not 68 <= len(text) <= 131:
        return z3.BoolVal(False)
    top_bit_fits = z3.Or(text[2] == 0, text[1] == 1) if version == 4 else text[2] == 0
    return z3.And(text[0] == version, z3.ULE(text[1], 1), z3.ULE(text[2], 1),
                  text[3] == len(text) - 68, top_bit_fits)


def next_pair(products, version, x, y):
    """A step of the generator. The new x is its output."""
    low, high = products.new(x, y)
    y = simple(y + high + ODD_BITS)
    return simple(low ^ y if version == 4 else (low ^ high) + EVEN_BITS), y


def filled(products, version, pair, length):
    """The pairs before and after each step of a fill, and the bytes that it writes."""
    pairs = [pair]
    for _ in range(0, length, 8):
        pairs.append(next_pair(products, version, *pairs[-1]))
    return pairs, [byte for x, _ in pairs[1:] for byte in bytes_of(x)][:length]


def seeded(products, version, seed, extra_seed):
    """The first pair of a generator: four steps from its seeds."""
    return filled(products, version, (seed, extra_seed), 4 * 8)[0][-1]
