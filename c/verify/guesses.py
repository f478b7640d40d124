"""Guesses. Nothing here needs trust: invariants of any forms at any cuts are proved."""
import collections
import functools
import itertools
import operator
import z3
from terms import Refused, Unknown, bv, simple, sym, symbols

# To find the loop, calls are run with a small q, and with one and a remainder. Invariants are
# guessed from calls with a huge one.
TURNS, REST, LONG = 12, 40, 2**20
# The cuts that were found, by the function and the library.
CUTS = {}
# In a linear form, the factors of the units and of the length.
FACTORS = list(itertools.product((0, 1, -1, 8, -8), (0, 1)))
# How many words the definition has of calls that take blocks.
LANES_AND_LAST = 9


def cuts(proof):
    """The head of a loop and its exit, as they were found first for calls of this kind."""
    kind = proof.name, proof.image
    if kind not in CUTS:
        CUTS[kind] = find_cuts(proof)
    return CUTS[kind]


def find_cuts(proof):
    """The head is the first of the places to which a long call comes more often than a short one,
    by most. The exit is the first place outside of the loop that the short one comes to too."""
    (few, early), (many, refusal) = places(proof, proof.kind.LEAST), places(proof, TURNS)
    often = collections.Counter(many)
    often.subtract(few)
    head = max(many, key=often.get)
    if often[head] < 2:
        raise refusal or Unknown(f'{proof.name}: no loop was found')
    last = len(many) - 1 - many[::-1].index(head)
    inside = set(many[many.index(head):last])
    for pc in many[last:]:
        if pc not in inside and (head in few or pc in few):
            return head, pc
    raise early or refusal or Unknown(f'{proof.name}: {head:#x}: the loop has no exit')


def places(proof, q):
    """The places to which an accepted call of GRAIN * q + REST bytes comes on its first path, and
    why it ends if it is refused, which doesn't matter after the loop."""
    call = proof.call(bv(proof.kind.GRAIN * q + REST), bv(proof.pendings()[0]))
    call.facts.add(call.accepted())
    call.follow(0)
    try:
        next(call.cpu.run(proof.entry))
    except Refused as refused:
        return list(proof.seen.order), refused
    return list(proof.seen.order), None


def arrivals(proof):
    """A long call, and two arrivals at the head, by which its invariant is guessed, after how many
    bytes a turn takes. That of the exit is guessed when a turn arrives there."""
    call, cuts = proof.long_call(bv(proof.pendings()[0])), (proof.head, proof.exit)
    call.facts.add(z3.UGE(proof.q, LONG), call.accepted())
    call.follow(proof.step)
    one, _ = next(call.cpu.run(proof.entry, cuts))
    other, _ = next(one.copy().run(proof.head, cuts))
    proof.step = proof.kind.SIZE * (call.steps(other) - call.steps(one))
    return call, *(proof.arrival(call, end)[0] for end in (one, other))


def of_turns(units, length):
    """What a loop keeps that takes two blocks in a turn, and before it one if their number is odd:
    where the first turn begins, where the last one ends, what is between, and so on."""
    begin = (units & 63) + (length - (units & 63) & 64)
    end = length - (length - units & 63)
    turns = z3.LShR(end - begin, 7)
    return begin, end, length - begin, end - begin, turns, turns - 1, length - begin & 127


def forms_of(places, stable, first, second, word):
    """The forms that a word has at two arrivals."""
    a, b, one, other = first.words[word], second.words[word], first.world, second.world
    found = [a] if symbols(a) <= stable and z3.eq(a, b) else []
    if a.size() != 64 or any(name.endswith('of the caller') for name in symbols(a)):
        return found

    def has(form, on_path=False):
        return all(at.facts.holds(at.path if on_path else (), at.words[word] == form(at.world))
                   for at in (first, second))
    for factors in () if found else FACTORS:
        def linear(*terms):
            return sum(k * term for k, term in zip(factors, terms) if k)
        constant = simple(a - linear(one.units, one.length))
        if symbols(constant) <= stable and \
                z3.eq(constant, simple(b - linear(other.units, other.length))):
            found.append(constant + linear(*places))
            break
    # As of a write whose last bytes are counted before the loop is left.
    def left(units, length):
        return length - units & 63
    if has(lambda world: left(world.units, world.length)):
        found.append(left(*places[:2]))
    count = range(len(one.words))
    for key in [] if found else [*zip(count), *itertools.combinations(count, 2)]:
        def xored(words):
            return functools.reduce(operator.xor, (words[k] for k in key))
        if has(lambda world: xored(world.words)):
            return [xored(places[2:])]
    base = sym('bytes') if 'bytes' in symbols(a) else 0
    for k, form in enumerate(of_turns(*places[:2])):
        if len(one.words) == LANES_AND_LAST and has(
                lambda world: base + of_turns(world.units, world.length)[k], True):
            found.append(base + form)
    return found
