"""What holds of all states that arrive at one place of a loop: an invariant, which is guessed from
examples. What an arrival doesn't confirm is dropped, so a wrong guess can't lead to a wrong claim.

An invariant gives each word of registers and memory forms, or none. A form is a term that has
symbols for what the definition says at an arrival, which is the arrival's world. For example, in
the loop of a hash,
- a register is `bytes + units`, the address of the next byte;
- eight other words are the lanes, or two lanes xored: words of the world;
- the stack pointer, and what the caller had in its registers, stay as they are: fixed terms.
Beside forms, some conditions hold, as that a turn of the loop is left."""
import collections
from guesses import forms_of
from terms import join, part, put_for, sym, symbols, width_of

# In a form, the units and the length, and then the words of a world.
PLACES = [sym(f'place {k} of a world') for k in range(11)]
COUNTS = frozenset().union(*map(symbols, PLACES))


class World(collections.namedtuple('World', 'words units length')):
    """What the definition says at an arrival: its words, how many units of bytes were taken, and
    how many bytes there are."""

    def value(self, form):
        """The term that a form is in this world."""
        return put_for(form, *zip(PLACES, [self.units, self.length, *self.words]))


class Arrival:
    """A state that arrives at a place: its words, its world, and which conditions hold of it."""

    def __init__(self, cpu, world, conditions):
        self.facts, self.path, self.world = cpu.facts, cpu.path, world
        self.words = words_in(cpu)
        self.holding = self.facts.holding(self.path, conditions)


def words_in(cpu):
    """The words of registers, both stacks, a generator and a stream, and a stream's flags."""
    found = {(n, low // 64): part(term, low, 64)
             for n, term in cpu.r.items() for low in range(0, width_of(term), 64)}
    known = cpu.memory.data
    for name, k in known:
        size = size_of(cpu, name, k)
        if name in ('stack', 'shadow', 'stream', 'rand') and k % size == 0:
            if all((name, k + j) in known for j in range(size)):
                found[name, k] = cpu.memory.content(name, k, size)
    return found


def size_of(cpu, name, offset):
    """The bytes of a word in memory. The flags of a stream are single bytes."""
    return 1 if name == 'stream' and offset >= cpu.image.layout.FLAGS else 8


class Invariant:
    """What holds of the states that arrive at one place: forms by word, and names of conditions.

    Forms may have the symbols of a world, and *stable* ones, which mean the same at each arrival of
    a call: an argument, the length, what the caller had in a register. Others, such as the bytes
    of a turn, have one meaning in each turn, so no form may have them. A word may have more than
    one form: at the first arrivals, some can't be told apart."""

    def __init__(self, stable, first, second):
        """Guesses from two arrivals, which may be the same."""
        self.holding = first.holding & second.holding
        self.forms = {word: [form for form in forms_of(PLACES, stable, first, second, word)
                             if symbols(form) <= stable | COUNTS]
                      for word in first.words if word in second.words}

    def admit(self, arrival):
        """Drops what doesn't hold of an arrival. Returns whether all did."""
        holding, forms = self.holding & arrival.holding, self.confirmed(arrival)
        fits = (holding, forms) == (self.holding, self.forms)
        self.holding, self.forms = holding, forms
        return fits

    def confirmed(self, arrival):
        """The forms of the words that an arrival has, without those that it doesn't have."""
        return {word: [form for form in forms if arrival.facts.holds(
            arrival.path, arrival.words[word] == arrival.world.value(form))]
                for word, forms in self.forms.items() if word in arrival.words}

    def assume(self, cpu, world, change):
        """Puts a processor into any state that has the forms, of which each term is changed as the
        function says. Words without a form hold anything, and of the stack, nothing else is there:
        a signal handler may have changed what a call finds there when it begins."""
        cpu.memory.lose('stack', cpu.ABOVE)
        words = {n: [] for n in cpu.r}
        for (name, k), forms in self.forms.items():
            terms = [change(world.value(form)) for form in forms]
            word = terms[0] if forms else cpu.fresh(8 * size_of(cpu, name, k))
            cpu.facts.add(*(word == term for term in terms[1:]))
            if name in words:
                words[name].append(word)
            else:
                cpu.memory.put(name, k, word)
        cpu.r.update((n, join(of_register)) for n, of_register in words.items())
