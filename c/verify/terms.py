"""Terms: bit vectors of Z3 over symbols; and Facts, which asks Z3 what holds of them."""
import collections
import functools
import os
import second
import z3

# Z3 itself checks what it is passed. Its Python module need not do so first, nor ask for errors
# after each call, since an error ends this process, and nothing is claimed then.
z3.z3.Z3_DEBUG, z3.z3core.Elementaries.Check = False, lambda *_: None
HANDLER = z3.Z3_set_error_handler(z3.main_ctx().ref(), lambda *_: os._exit(2))
# Sums and xors of the same parts, in any order, become the same term.
SIMPLIFY = z3.args2params([], {'bv_sort_ac': True})
# The solvers that are asked one after the other, and how many steps each may make. The first is
# quick with lengths, and the second with shifts of contents.
SOLVERS = ((z3.Tactic('smt'), 10**5),
           (z3.Then('simplify', 'solve-eqs', 'simplify', 'bit-blast', 'sat'), 10**9))
# What was answered, the models found last, and how many questions were asked in this case.
ANSWERS, MODELS, ASKED = {}, collections.deque(maxlen=16), [0]


class Refused(Exception):
    """Something that a function must not do."""


class Unknown(Exception):
    """Something that this program can't judge, so that nothing may be claimed."""


class Symbols:
    """The symbols by name. Secret are those that stand for contents, and not for lengths or
    addresses. What `of` finds is remembered for each part of a term, by the number that Z3 gives
    it, with the term, so that Z3 doesn't give its number to others."""

    def __init__(self):
        self.term, self.secret, self.found = {}, set(), {}

    def of(self, term):
        """The names of the symbols in a term."""
        key = term.get_id()
        if key not in self.found:
            if term.children():
                names = frozenset().union(*map(self.of, term.children()))
            else:
                names = frozenset([str(term)] if z3.is_const(term) and
                                  term.decl().kind() == z3.Z3_OP_UNINTERPRETED else [])
            self.found[key] = names, term
        return self.found[key][0]


SYMBOLS = Symbols()
symbols = SYMBOLS.of


@functools.lru_cache(maxsize=None)
def bv(value, width=64):
    return z3.BitVecVal(value, width)


@functools.lru_cache(maxsize=None)
def sym(name, width=64):
    SYMBOLS.term[name] = z3.BitVec(name, width)
    return SYMBOLS.term[name]


def secret(name, width=64):
    SYMBOLS.secret.add(name)
    return sym(name, width)


def is_public(term):
    return not symbols(term) & SYMBOLS.secret


def coerced(a, b, context=None):
    """The operands of an operator of two terms, as Z3's module has them. It makes objects for their
    sorts first, which takes long."""
    if isinstance(a, z3.BitVecRef) and isinstance(b, (int, z3.BitVecRef)):
        return a, bv(b, width_of(a)) if isinstance(b, int) else b
    return COERCED(a, b, context)


COERCED, z3.z3._coerce_exprs = z3.z3._coerce_exprs, coerced


def simple(term):
    if isinstance(term, z3.BitVecNumRef):
        return term
    ast = z3.Z3_simplify_ex(term.ctx_ref(), term.as_ast(), SIMPLIFY.params)
    return z3.z3._to_expr_ref(ast, term.ctx)


def const(term):
    """The number that a term is, or None."""
    return term.as_long() if z3.is_bv_value(term) else None


def signed(term):
    """The signed number that a term is, or None."""
    return term.as_signed_long() if z3.is_bv_value(term) else None


def width_of(term):
    """What term.size() is, without its object for the sort, which takes long."""
    return z3.Z3_get_bv_sort_size(term.ctx_ref(), z3.Z3_get_sort(term.ctx_ref(), term.as_ast()))


def part(term, low, width):
    """Bits of a term, from `low` on."""
    if low == 0 and width_of(term) == width:
        return term
    return simple(z3.Extract(low + width - 1, low, term))


def join(parts):
    """One term of the parts, the lowest first."""
    return parts[0] if len(parts) == 1 else simple(z3.Concat(*reversed(parts)))


def bytes_of(term):
    return [part(term, low, 8) for low in range(0, term.size(), 8)]


def resize(term, width):
    """A term of this width, by zeros or by taking its low bits."""
    if term.size() < width:
        return simple(z3.ZeroExt(width - term.size(), term))
    return part(term, 0, width)


def put_for(term, *pairs):
    """A term with values in place of symbols."""
    return simple(z3.substitute(term, *pairs))


def choose(cond, yes, no):
    return simple(z3.If(cond, yes, no))


def leading_zeros(term):
    """How many of the highest bits are 0."""
    width = term.size()
    result = bv(width, width)
    for k in range(width):
        result = z3.If(z3.Extract(k, k, term) == 1, bv(width - 1 - k, width), result)
    return result


class Facts:
    """What holds for the symbols. Conditions are asked on a path, a list of conditions that hold
    there too. The symbols stand for all values that the facts allow: what is shown, is shown by
    finding that its opposite has no model."""

    def __init__(self):
        self.list = []

    def add(self, *facts):
        self.list.extend(facts)

    def model(self, path, *terms):
        """A model in which the terms hold on this path, or None. What can't be without some facts
        can't be with them, so it is asked first without those about other symbols. Answers are
        remembered (`symbols` keeps the terms), and a model of other terms may be one of these."""
        wanted, names = [*self.list, *path, *terms], frozenset().union(*map(symbols, terms))
        for some in [term for term in wanted if symbols(term) <= names], wanted:
            key = frozenset(term.get_id() for term in some)
            if key not in ANSWERS:
                both = z3.And(*some)
                known = (m for m in MODELS if z3.is_true(m.eval(both, model_completion=True)))
                ANSWERS[key] = next(known, None) or self.ask(some)
            if ANSWERS[key] is None:
                return None
        return ANSWERS[key]

    def ask(self, terms):
        ASKED[0] += 1
        for tactic, effort in SOLVERS:
            solver = tactic.solver()
            solver.set('rlimit', effort)
            solver.add(*terms)
            if (answer := solver.check()) != z3.unknown:
                break
        else:
            raise Unknown('Z3 does not answer with the effort that is allowed')
        if second.NAME and (why := second.objection(solver, str(answer))):
            raise Unknown(why)
        if answer == z3.unsat:
            return None
        MODELS.appendleft(solver.model())
        return MODELS[0]

    def decide(self, path, cond):
        """True, False, or None if both can be on this path."""
        cond = simple(cond)
        if z3.is_true(cond) or z3.is_false(cond):
            return z3.is_true(cond)
        if self.model(path, z3.Not(cond)) is None:
            return True
        return False if self.model(path, cond) is None else None

    def holds(self, path, cond):
        cond = simple(cond)
        return z3.is_true(cond) or self.model(path, z3.Not(cond)) is None

    def holding(self, path, conds):
        """The names of those conditions that hold on this path."""
        return {name for name, cond in conds.items() if self.holds(path, cond)}

    def values(self, term, path, most):
        """The values that a term can have on this path; None if there are more."""
        # The first condition is always true, and its symbols say which facts are asked first.
        found, conds = [], [term == term]
        while (model := self.model(path, *conds)) is not None:
            found.append(model.eval(term, model_completion=True))
            conds = [term != value for value in found]
            if len(found) > most:
                return None
        return found

    def unique(self, term, path):
        """The one signed number that a term can be on this path, or None."""
        if z3.is_bv_value(term):
            return signed(term)
        found = self.values(term, path, 1)
        return signed(found[0]) if found else None
