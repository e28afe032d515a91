"""Formulas in conjunctive normal form, as lists of clauses of signed numbers, in four families.

Random clauses of three literals; pigeons in too few holes; identities of sums, masks and products, asserted to fail
somewhere; and location questions: whether so many components, each operation once, compute a goal at some examples.
"""
import itertools
import random


class Circuit:
    """Clauses that grow by gates. A word is a list of literals, the lowest bit first."""

    def __init__(self):
        self.variables = 0
        self.clauses = []
        self.truth = None

    def bit(self):
        self.variables += 1
        return self.variables

    def word(self, width):
        return [self.bit() for _ in range(width)]

    def true(self):
        if self.truth is None:
            self.truth = self.bit()
            self.clauses.append([self.truth])
        return self.truth

    def constant(self, number, width):
        return [self.true() if number >> place & 1 else -self.true() for place in range(width)]

    def gate(self, rows):
        """A new literal; in the rows, `True` stands for it and `False` for its opposite."""
        out = self.bit()
        self.clauses += [[out if lit is True else -out if lit is False else lit for lit in row] for row in rows]
        return out

    def both(self, a, b):
        return self.gate([[False, a], [False, b], [True, -a, -b]])

    def either(self, a, b):
        return -self.both(-a, -b)

    def differ(self, a, b):
        return self.gate([[False, a, b], [False, -a, -b], [True, -a, b], [True, a, -b]])

    def choice(self, test, a, b):
        return self.gate([[-test, -a, True], [-test, a, False], [test, -b, True], [test, b, False]])

    def bitwise(self, gate, left, right):
        return [gate(a, b) for a, b in zip(left, right)]

    def invert(self, word):
        return [-lit for lit in word]

    def add(self, left, right, carry=None):
        out = []
        for a, b in zip(left, right):
            half = self.differ(a, b)
            if carry is None:
                out.append(half)
                carry = self.both(a, b)
            else:
                out.append(self.differ(half, carry))
                carry = self.either(self.both(a, b), self.both(half, carry))
        return out

    def subtract(self, left, right):
        return self.add(left, self.invert(right), self.true())

    def negate(self, word):
        return self.add(self.invert(word), self.constant(1, len(word)))

    def multiply(self, left, right):
        total = [self.both(a, right[0]) for a in left]
        for place in range(1, len(left)):
            row = [self.both(a, right[place]) for a in left[: len(left) - place]]
            total[place:] = self.add(total[place:], row)
        return total

    def shift_left(self, word, amount):
        for place, test in enumerate(amount):
            by = min(1 << place, len(word))
            moved = [-self.true()] * by + word[: len(word) - by]
            word = [self.choice(test, a, b) for a, b in zip(moved, word)]
        return word

    def assert_unequal(self, left, right):
        self.clauses.append(self.bitwise(self.differ, left, right))

    def assert_equal(self, left, right):
        for a, b in zip(left, right):
            self.clauses += [[-a, b], [a, -b]]

    def one_of(self, count):
        """Literals of which exactly one is true."""
        chosen = self.word(count)
        self.clauses.append(list(chosen))
        self.clauses += [[-a, -b] for a, b in itertools.combinations(chosen, 2)]
        return chosen

    def chosen(self, selectors, words):
        out = self.word(len(words[0]))
        for selector, word in zip(selectors, words):
            for a, b in zip(word, out):
                self.clauses += [[-selector, -a, b], [-selector, a, -b]]
        return out


def random_clauses(variables, seed):
    rng = random.Random(1000 * variables + seed)
    clauses = []
    for _ in range(round(4.2 * variables)):
        chosen = rng.sample(range(1, variables + 1), 3)
        clauses.append([x if rng.random() < 0.5 else -x for x in chosen])
    return variables, clauses


def pigeons(holes):
    def sits(pigeon, hole):
        return pigeon * holes + hole + 1

    clauses = [[sits(p, h) for h in range(holes)] for p in range(holes + 1)]
    clauses += [[-sits(p, h), -sits(q, h)] for h in range(holes) for q in range(holes + 1) for p in range(q)]
    return holes * (holes + 1), clauses


def identity(width, inputs, sides):
    circuit = Circuit()
    left, right = sides(circuit, *[circuit.word(width) for _ in range(inputs)])
    circuit.assert_unequal(left, right)
    return circuit.variables, circuit.clauses


def sums_commute(c, x, y):
    return c.add(x, y), c.add(y, x)


def sums_associate(c, x, y, z):
    return c.add(c.add(x, y), z), c.add(x, c.add(y, z))


def lowest_one_off(c, x):
    return c.bitwise(c.both, x, c.add(x, c.constant(-1, len(x)))), c.subtract(x, c.bitwise(c.both, x, c.negate(x)))


def lowest_one_flipped(c, x):
    low = c.bitwise(c.both, x, c.negate(x))
    return c.bitwise(c.both, x, c.add(x, c.constant(-1, len(x)))), c.bitwise(c.differ, x, low)


def difference_by_sum(c, x, y):
    return c.subtract(x, y), c.invert(c.add(c.invert(x), y))


def products_commute(c, x, y):
    return c.multiply(x, y), c.multiply(y, x)


def products_distribute(c, x, y, z):
    return c.multiply(x, c.add(y, z)), c.add(c.multiply(x, y), c.multiply(x, z))


COMPONENTS = {
    "and": (2, lambda c, x, y: c.bitwise(c.both, x, y)),
    "or": (2, lambda c, x, y: c.bitwise(c.either, x, y)),
    "xor": (2, lambda c, x, y: c.bitwise(c.differ, x, y)),
    "add": (2, lambda c, x, y: c.add(x, y)),
    "sub": (2, lambda c, x, y: c.subtract(x, y)),
    "not": (1, lambda c, x: c.invert(x)),
    "neg": (1, lambda c, x: c.negate(x)),
    "shl": (2, lambda c, x, y: c.shift_left(x, y)),
    "mul": (2, lambda c, x, y: c.multiply(x, y)),
}


def location_question(names, width, inputs, goal, examples):
    """Each component has a line; each argument and the result is an input or a component at an earlier line."""
    circuit, rng, count = Circuit(), random.Random(1), len(names)
    lines = [circuit.one_of(count) for _ in names]
    for line in range(count):
        circuit.clauses += [[-p[line], -q[line]] for p, q in itertools.combinations(lines, 2)]
    sources = [[circuit.one_of(inputs + count) for _ in range(COMPONENTS[name][0])] for name in names]
    for user, choices in enumerate(sources):
        for choice in choices:
            for used in range(count):
                for line in range(count):
                    for later in range(line, count):
                        circuit.clauses.append([-lines[user][line], -lines[used][later], -choice[inputs + used]])
    result = circuit.one_of(inputs + count)
    for used in range(count):
        named = [choice[inputs + used] for choices in sources for choice in choices]
        circuit.clauses.append([result[inputs + used]] + named)
    for _ in range(examples):
        numbers = [rng.getrandbits(width) for _ in range(inputs)]
        outs = [circuit.word(width) for _ in names]
        words = [circuit.constant(number, width) for number in numbers] + outs
        for user, name in enumerate(names):
            arguments = [circuit.chosen(choice, words) for choice in sources[user]]
            circuit.assert_equal(outs[user], COMPONENTS[name][1](circuit, *arguments))
        wanted = circuit.constant(goal(*numbers) % 2**width, width)
        circuit.assert_equal(circuit.chosen(result, words), wanted)
    return circuit.variables, circuit.clauses


def families():
    """The name of each family, with the names and the formulas in it."""
    yield "random", [
        (f"{count} variables, {seed}", random_clauses(count, seed))
        for count in (100, 150, 200, 250)
        for seed in (1, 2, 3)
    ]
    yield "pigeons", [(f"{holes + 1} pigeons", pigeons(holes)) for holes in (7, 8)]
    identities = [
        ("x + y = y + x", 2, sums_commute, (8, 16, 32)),
        ("(x + y) + z = x + (y + z)", 3, sums_associate, (4, 6, 8)),
        ("x & (x - 1) = x - (x & -x)", 1, lowest_one_off, (8, 16, 32)),
        ("x & (x - 1) = x ^ (x & -x)", 1, lowest_one_flipped, (8, 16, 32)),
        ("x - y = ~(~x + y)", 2, difference_by_sum, (8, 16, 32)),
        ("x * y = y * x", 2, products_commute, (4, 5, 6)),
        ("x * (y + z) = x * y + x * z", 3, products_distribute, (3, 4)),
    ]
    yield "identities", [
        (f"{name}, {width} bits", identity(width, inputs, sides))
        for name, inputs, sides, widths in identities
        for width in widths
    ]

    def andn(x, y):
        return ~x & y

    def reset(x):
        return x & (x - 1)

    def minus(x, y):
        return x - y

    questions = [
        ("andn", ["not", "and"], 32, 2, andn, 2),
        ("andn", ["add", "or"], 32, 2, andn, 2),
        ("andn", ["add", "xor"], 32, 2, andn, 4),
        ("andn", ["add", "or", "xor"], 8, 2, andn, 3),
        ("andn", ["add", "or", "xor"], 32, 2, andn, 3),
        ("blsr", ["add", "or", "not"], 32, 1, reset, 3),
        ("blsr", ["neg", "and", "xor"], 32, 1, reset, 3),
        ("sub", ["not", "add", "not"], 64, 2, minus, 2),
        ("sub", ["xor", "add", "and"], 64, 2, minus, 2),
        ("andn", ["shl", "or"], 32, 2, andn, 2),
        ("andn", ["mul", "or"], 8, 2, andn, 2),
        ("andn", ["mul", "xor"], 16, 2, andn, 2),
        ("andn", ["add", "or", "xor", "sub"], 8, 2, andn, 3),
    ]
    yield "locations", [
        (f"{goal_name} of {' '.join(names)}, {width} bits", location_question(names, width, inputs, goal, examples))
        for goal_name, names, width, inputs, goal, examples in questions
    ]
