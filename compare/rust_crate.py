"""Shows by ../c/verify what the machine code of the Rust crate `komihash` computes. Its streams lie
in memory in another way than those of this library. The layout is trusted as that one is."""
import os
import sys
import z3
sys.path.append(os.path.join(os.path.dirname(os.path.abspath(__file__)), '..', 'c', 'verify'))
import terms
from definition import FALSE, TRUE
from layout import Ours
from report import main
from terms import bv, join, part, secret, simple, sym


class Crate(Ours):
    """A buffer, in which anything comes after the pending bytes; the lanes; in version 4 the last
    word of the last block, of which only the top bit counts; and the count of all bytes."""
    FLAGS, MORE = 144, (sym('count'),)

    def __init__(self, version):
        super().__init__(version)
        self.count_at = 136 if version == 4 else 128
        self.SIZE = self.count_at + 8

    def exact(self, state):
        for k in range(0, len(state.pending), 8):
            yield k, join(state.pending[k:k + 8])
        yield from ((64 + 8 * k, lane) for k, lane in enumerate(state.lanes))

    def store(self, call, state):
        super().store(call, state)
        count = self.count_before(call)
        call.facts.add(z3.UGE(count, 64) == (state.had_block == TRUE))
        if self.version == 4:
            call.memory.put('stream', 128, self.last_word(state))
        call.memory.put('stream', self.count_at, count)

    def count_before(self, call):
        """The count before a call, by which it must not overflow. The one after it means the same
        at each arrival."""
        return simple(sym('count') - call.length)

    def more_facts(self, call):
        count = self.count_before(call)
        call.facts.add(count & 63 == call.pending, z3.UGE(sym('count'), call.length))

    def last_word(self, state):
        return simple(z3.Concat(part(state.top_bit, 0, 1), secret('low bits of the last word', 63)))

    def check(self, end, state):
        super().check(end, state)
        end.memory.content('stream', 0, self.SIZE)  # No byte may be left without content.
        count = end.memory.content('stream', self.count_at, 8)
        end.check('number of pending bytes', simple(count & 63), bv(len(state.pending)))
        end.check('had_block', terms.choose(z3.UGE(count, 64), TRUE, FALSE), state.had_block)
        if self.version == 4:
            last = end.memory.content('stream', 135, 1)
            end.check('top bit', terms.choose(last < 0, TRUE, FALSE), state.top_bit)


if __name__ == '__main__':
    sys.exit(main(__doc__, Crate))
