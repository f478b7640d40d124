"""The definition against values of the Rust crate and of the C original, and its streams against
its hash."""
import functools
import os
import z3
from calls import named, some_state
from cases import results
from definition import (VERSIONS, Products, State, are_padded, filled, hash_from_lanes, is_text,
                        komi, padded_words, seeded, start, words_of)
from terms import Unknown, bv, bytes_of, const, secret, simple

# The files of values, which explain their rows, and how many they have.
C = os.path.dirname(os.path.dirname(os.path.abspath(__file__)))
FOLDER = next(filter(os.path.isdir, (os.path.join(at, 'rust/tests') for at in (C, f'{C}/..'))))
ROWS = {'vectors.tsv': 95, 'values.tsv': 58}


class Numbers(Products):
    """Products of numbers, which are multiplied."""

    def new(self, x, y):
        product = const(simple(x)) * const(simple(y))
        return bv(product), bv(product >> 64)

    def symbol(self, term):
        return simple(term)


NUMBERS = Numbers()


def number(digits):
    return bv(int(digits, 16))


def content(digits):
    return [bv(byte, 8) for byte in bytes.fromhex(digits)]


def hexadecimal(terms):
    return bytes(map(const, terms)).hex()


def komihash(version, seed, *messages):
    """The hash, which is the seed for a further message."""
    for message in messages:
        seed = f'{const(komi(NUMBERS, version, number(seed), content(message))):016x}'
    return seed


def save(version, seed, message):
    state = start(NUMBERS, number(seed)).absorb(NUMBERS, version, content(message))
    return hexadecimal(bytes_of(state.text(version)))


def resume(version, text):
    text = content(text)
    if not z3.is_true(simple(is_text(version, text))):
        return 'none'
    state = State(words_of(text[4:68]), text[68:], *text[1:3])
    return f'{const(state.answer(NUMBERS, version)):016x}'


def fills(version, x, y, *lengths, first=lambda _, *pair: pair):
    pairs, written = [first(version, number(x), number(y))], []
    for length in map(int, lengths):
        pairs, some = filled(NUMBERS, version, pairs[-1], length)
        written += some
    return hexadecimal(written)


def unpad(version, *words):
    content = [byte for word in words for byte in bytes_of(number(word))]
    for length in range(len(content)):
        if z3.is_true(are_padded(version, content, length)):
            return hexadecimal(content[:length])
    return 'none'


seeded_fills = functools.partial(fills, first=functools.partial(seeded, NUMBERS))
CALLS = {
    'komihash': komihash, 'hasher': komihash, 'save': save, 'resume': resume, 'unpad': unpad,
    'new': fills, 'init_with_extra_seed': seeded_fills,
    'init': lambda version, seed, *lengths: seeded_fills(version, seed, seed, *lengths)}


def check_all_values():
    for name, count in ROWS.items():
        with open(os.path.join(FOLDER, name)) as file:
            rows = [line.rstrip('\n').split('\t') for line in file if line[0] != '#']
        if len(rows) != count:
            raise Unknown(f'{name} has {len(rows)} values, and not {count}')
        for row in rows:
            call, version, *given, wanted = row if row[0] in CALLS else ['komihash', *row]
            found = CALLS[call](int(version), *given)
            if found != wanted:
                raise Unknown(f'the definition gives {found} and not {wanted} for {call} {given}')
        print(f'the definition gives the {count} values of {name}')


def check_length(length):
    """Whether a stream answers the hash of any bytes, cut in the middle, by the same products.
    Fewer than 64 bytes are absorbed by a new stream of any seed, others from any lanes. Of these,
    both definitions first take a block, and then have lanes again, and the bytes after it. So by
    induction over the blocks, all lengths are right if those below 128 are. Other cuts are too,
    since `absorb` takes blocks from the front of all bytes that it has."""
    message = named('bytes', range(length))
    for version in VERSIONS:
        one, other = Products(), Products()
        if length < 64:
            seed = secret('seed')
            found, state = komi(one, version, seed, message), start(other, seed)
        else:
            state, words = some_state(version, 0), padded_words(version, message)
            found = hash_from_lanes(one, version, state.lanes, words, state.had_block)
        for part in (message[:length // 2], message[length // 2:]):
            state = state.absorb(other, version, part)
        pairs = zip([found, *sum(one.list, ())],
                    [state.answer(other, version), *sum(other.list, ())], strict=True)
        if not all(z3.eq(a, b) for a, b in pairs):
            raise Unknown(f'the definition of streams gives other hashes for {length} bytes')


def check_streams(jobs):
    list(results(jobs, check_length, range(128)))
    print('in the definition, streams answer the hash of any message, however it is cut')
