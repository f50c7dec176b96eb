"""What document 01 and the requests in document 02 say about a frame, for the scripts that write test vectors: SCAN walked to the last leaf,
the hard word and what follows from it, the planner's cycles, the numbers of failed tests, and masks drawn in several ways."""
import random

CERTAIN = float('inf')   # of a 0; -CERTAIN is certain of a 1
UNDECIDED = 2            # in a hard word, and in the payload of one that has any
MOST_MASK = 2            # the largest mask byte: 0 unfrozen, 1 frozen to 0, 2 frozen to 1
ALLOWED = [2 ** n for n in range(1, 11)]
MOST_SWEEPS = 8
LARGEST_LLR = 32767


# ---- SCAN by definition: Python's infinities have the minimum and the sums that the requests give to certain values

def box(a, b):
    size = min(abs(a), abs(b))
    return -size if (a < 0) != (b < 0) else size


def plus(a, b):
    total = a + b
    assert total == total, 'certain of a 0 and certain of a 1 are to be added'
    return total


def walked(mask, llrs, sweeps):
    """The root's message after the last sweep, and the values with which that sweep visits the leaves."""
    n = len(mask)
    leaves = [0] * n
    message = {n + i: [(0, CERTAIN, -CERTAIN)[byte]] for i, byte in enumerate(mask)}
    for p in range(1, n):
        message[p] = [0] * (n >> p.bit_length() - 1)

    def visit(p, incoming):
        if p >= n:
            leaves[p - n] = incoming[0]
            return
        h = len(incoming) // 2
        first, second = incoming[:h], incoming[h:]
        r = message[2 * p + 1]
        visit(2 * p, [box(first[k], plus(second[k], r[k])) for k in range(h)])
        l = message[2 * p]
        visit(2 * p + 1, [plus(box(first[k], l[k]), second[k]) for k in range(h)])
        r = message[2 * p + 1]
        message[p] = [box(l[k], plus(second[k], r[k])) for k in range(h)] + [plus(r[k], box(first[k], l[k])) for k in range(h)]

    for _ in range(sweeps):
        visit(1, llrs)
    return message[1], leaves


def transform(u):
    """u times the Kronecker power of the rows (1 0), (1 1)."""
    if len(u) == 1:
        return u
    h = len(u) // 2
    first, second = transform(u[:h]), transform(u[h:])
    return [a ^ b for a, b in zip(first, second)] + second


def placed(mask, bits):
    """u: the bits one after another at the unfrozen positions, the known bits elsewhere."""
    rest = iter(bits)
    return [int(byte == 2) if byte else next(rest) for byte in mask]


def payload_of(mask, bits):
    return [bit for bit, byte in zip(bits, mask) if not byte]


def hard_bit(total):
    """The bit of LLR plus soft value."""
    if total == 0:
        return UNDECIDED
    return int(total < 0)


def decoded(mask, sweeps, llrs):
    """The soft values, the hard word, its payload, its frozen check, and how many of its bits are undecided."""
    soft, _ = walked(mask, llrs, sweeps)
    hard = [hard_bit(plus(llr, x)) for llr, x in zip(llrs, soft)]
    if UNDECIDED in hard:
        return soft, hard, [UNDECIDED for byte in mask if not byte], 0, hard.count(UNDECIDED)
    u = transform(hard)
    check = int(all(bit == (byte == 2) for bit, byte in zip(u, mask) if byte))
    return soft, hard, payload_of(mask, u), check, 0


def digits_of(bits):
    return ''.join(map(str, bits))


def failed(tests):
    """The numbers of the tests that a call fails, in their order."""
    return tuple(number for number, passed in tests if not passed)


# ---- the planner's plan and its cycles

def table(m):
    """The kinds of document 01 and of request No. 3 in request No. 4's order: name, least size, and the pattern at size m."""
    return [('rate-0', 1, '1' * m), ('rate-1', 1, '0' * m), ('SPC', 2, '1' + '0' * (m - 1)), ('REP', 2, '1' * (m - 1) + '0'),
            ('type III', 4, '11' + '0' * (m - 2)), ('type I', 4, '1' * (m - 2) + '00'),
            ('type II', 8, '1' * (m - 3) + '000'), ('type IV', 8, '111' + '0' * (m - 3))]


def kind(part):
    """The kind of a node by its part of the mask, where 1 and 2 count alike: the first that fits; None if it is of no kind."""
    mask = digits_of(int(byte > 0) for byte in part)
    return next((name for name, least, pattern in table(len(mask)) if len(mask) >= least and mask == pattern), None)


def cuts(part):
    """The parts of the mask whose nodes the planner cuts."""
    h = len(part) // 2
    return [part] if kind(part) else cuts(part[:h]) + cuts(part[h:])


def cut_kinds(mask):
    """The kinds of the nodes that the planner cuts, and of those among them that have a position frozen to 1."""
    parts = cuts(mask)
    return {kind(part) for part in parts}, {kind(part) for part in parts if 2 in part}


def cycles(part):
    """The cycles of one sweep from a node down."""
    constant = ('rate-0', 'rate-1')
    if kind(part):
        return 0 if kind(part) in constant else 4 if kind(part) in ('type II', 'type IV') else 2
    h = len(part) // 2
    return 2 + sum(cycles(child) + (0 if kind(child) in constant else 2) for child in (part[:h], part[h:]))


# ---- masks

def drawn_mask(n, style):
    """Nodes of all kinds side by side, or by the ones of the index and the index, with some chance, or by chance alone."""
    if style % 7 == 0 and n >= 64:
        patterns = [pattern for _, _, pattern in table(n // 8)]
        return list(map(int, ''.join(random.sample(patterns, 8))))
    weight, chance = [(n // 4, 0), (n // 4, n // 8), (n // 2, n), (0, n), (n, 0), (n // 2, 0), (0, 8 * n)][style % 7]
    measure = [i + weight * bin(i).count('1') + random.randint(0, chance) for i in range(n)]
    frozen = random.randint(0, n) if n <= 8 else random.randint(n // 4, n * 3 // 4)
    limit = (sorted(measure) + [max(measure) + 1])[frozen]
    return [int(x < limit) for x in measure]


def with_ones(mask, chance):
    """The mask with some of its frozen positions, by chance, frozen to 1."""
    return [2 if byte and random.random() < chance else byte for byte in mask]


def some_of_each(numbers, count, draw, number_of):
    """What draw gives, until there are `count` of each number."""
    seen = dict.fromkeys(numbers, 0)
    while min(seen.values()) < count:
        data = draw()
        number = number_of(data)
        if seen[number] < count:
            seen[number] += 1
            yield data
