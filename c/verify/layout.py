"""How a stream lies in memory. A layout says which memory stands for a state of the definition. If
`start` leaves such memory, and `write` and `finish` do on all such memory what the definition does,
then so does any sequence of them. `compare/rust_crate.py` has another layout.

Trusted is that `store` passes all memory that `check` accepts for a state. That the layout is the
library's needs no trust: with another one, right code is refused, but no wrong code passes."""
from definition import words_of
from terms import bv, simple


class Ours:
    """The pending bytes as eight words with zeros after them, their number, the lanes as four pairs
    in a ring, the fourth first, and the flags. A pair is one of s1 to s4 xor the second word of the
    pair before it, and one of s5 to s8."""
    # How many bytes a stream has, from where on its words are single bytes, and the symbols of what
    # it holds beside a state.
    SIZE, FLAGS, MORE = 144, 136, ()

    def __init__(self, version):
        self.version = version

    def exact(self, state):
        """What memory holds, by offset."""
        s, pending = state.lanes, state.pending
        yield from ((8 * k, word) for k, word in
                    enumerate(words_of(pending + [bv(0, 8)] * (64 - len(pending)))))
        yield 64, bv(len(pending))
        for k in range(4):
            yield 72 + 16 * k, simple(s[(k + 3) % 4] ^ s[4 + (k + 2) % 4])
            yield 80 + 16 * k, s[4 + (k + 3) % 4]
        yield self.FLAGS, state.had_block
        yield self.FLAGS + 1, state.top_bit

    def store(self, call, state):
        """Puts what stands for a state into memory of which each byte is anything."""
        for k, term in self.exact(state):
            call.memory.put('stream', k, term)

    def check(self, end, state):
        for k, term in self.exact(state):
            end.check(f'the stream at {k}', end.memory.content('stream', k, term.size() // 8), term)

    def more_facts(self, call):
        """Adds what is known of a call by what its stream holds beside a state."""

    def last_word(self, state):
        """The last word of the last block, if a stream holds it."""
        return bv(0)
