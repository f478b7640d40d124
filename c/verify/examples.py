"""Examples of what is wrong. Nothing here needs trust: it only words a refusal."""
import random
from terms import SYMBOLS, bv, part, put_for, resize, symbols


def difference(end, found, wanted):
    """What was found in place of what is wanted, with the inputs for which they differ."""
    one, other, inputs = example(end, found, wanted)
    if one == other:
        return 'not shown to be what is expected, and no example was found'
    return f'found {one:#x}, expected {other:#x}, for {inputs}'


def example(end, found, wanted):
    """The values of two terms that differ, and the inputs for which they do. In the solver's model,
    products are any numbers. Here they are computed, which may make the terms equal: then random
    inputs are tried."""
    model = end.facts.model(end.path, found != wanted)

    def of_model(name):
        return model.eval(SYMBOLS.term[name], model_completion=True)

    def at_random(name):
        return bv(random.getrandbits(64), SYMBOLS.term[name].size())
    for number_of in of_model, *[at_random] * 8:
        one, other, values = evaluated(end.products, number_of, found, wanted)
        if one != other:
            break
    if number_of is of_model:
        values.update((name, of_model(name)) for term in end.path for name in symbols(term))
    return one, other, ', '.join(f'{name} = {value.as_long():#x}' for name, value in
                                 sorted(values.items()) if 'product' not in name)


def evaluated(products, number_of, *terms):
    """The values of terms, and of the symbols in them by name."""
    values, made = {}, {str(symbol): term for symbol, term in products.values.values()}
    for x, y, *halves in products.list:
        product = resize(x, 128) * resize(y, 128)
        made.update((str(half), part(product, 64 * k, 64)) for k, half in enumerate(halves))

    def value(term):
        for name in symbols(term) - values.keys():
            values[name] = bv(value(made[name])) if name in made else number_of(name)
        return put_for(term, *((SYMBOLS.term[name], values[name])
                               for name in symbols(term))).as_long()
    return *map(value, terms), values
